// Package clidoc writes a cobra program as a description in JSON, except types and which flags go together.
package clidoc

import (
	"encoding/json"
	"io"
	"strings"

	"github.com/spf13/cobra"
	"github.com/spf13/pflag"
)

type table map[string]any

// Write writes the root command, and all below it. Persistent flags of the root stand on each page.
func Write(out io.Writer, root *cobra.Command) error {
	root.InitDefaultHelpFlag()
	root.InitDefaultVersionFlag()
	root.Flags().Lookup("help").Usage = "show this help"
	made := level(root)
	made["help_option"] = options(root, true)
	encoder := json.NewEncoder(out)
	encoder.SetIndent("", "  ")
	return encoder.Encode(made)
}

func level(command *cobra.Command) table {
	values, usage := positionals(command.Use)
	made := table{"name": command.Name(), "option": options(command, false), "positional": values,
		"command": commands(command, ""), "command_required": !command.Runnable() || !command.HasSubCommands()}
	put(made, "about", command.Short)
	put(made, "about", command.Long)
	put(made, "usage", usage)
	if command.HasExample() {
		made["topic"] = []table{{"title": "Examples", "text": "```\n" + command.Example + "\n```"}}
	}
	groups := []table{}
	for _, group := range command.Groups() {
		groups = append(groups, table{"title": group.Title, "command": commands(command, group.ID)})
	}
	made["group"] = groups
	return made
}

func commands(parent *cobra.Command, group string) []table {
	made := []table{}
	for _, command := range parent.Commands() {
		if command.GroupID == group && command.Name() != "help" {
			one := level(command)
			put(one, "hidden", command.Hidden || command.Deprecated != "")
			put(one, "help", command.Short)
			if command.Aliases != nil {
				one["aliases"] = command.Aliases
			}
			made = append(made, one)
		}
	}
	return made
}

// The values that the words of a usage name, as `NAME`, `[NAME]` and `NAME...`; or the usage, where a word is of another form.
func positionals(usage string) ([]table, string) {
	made := []table{}
	for _, word := range strings.Fields(strings.ReplaceAll(usage, "[flags]", ""))[1:] {
		value := strings.Trim(strings.ReplaceAll(word, "...", ""), "[]<>")
		if value == "" || strings.HasPrefix(value, "-") || strings.ContainsAny(value, "|(){}[]<>=") {
			return []table{}, usage
		}
		isOptional, isRepeated := strings.HasPrefix(word, "["), strings.Contains(word, "...")
		made = append(made, table{"value": value, "required": !isOptional, "repeated": isRepeated})
	}
	return made, ""
}

// The flags of a command: those that each command has, or the others.
func options(command *cobra.Command, areShared bool) []table {
	made := []table{}
	add := func(flag *pflag.Flag) {
		isShared := flag.Name == "help" || command.Root().PersistentFlags().Lookup(flag.Name) == flag
		if isShared == areShared && !(isShared && flag.Hidden) {
			made = append(made, option(flag))
		}
	}
	command.LocalFlags().VisitAll(add)
	command.InheritedFlags().VisitAll(add)
	return made
}

func option(flag *pflag.Flag) table {
	kind, isRequired := flag.Value.Type(), flag.Annotations[cobra.BashCompOneRequiredFlag] != nil
	word, help := pflag.UnquoteUsage(flag)
	value, takesValue := strings.ToUpper(word), kind != "bool" && kind != "count"
	made := table{}
	put(made, "help", help)
	put(made, "hint", map[string]string{"int": "none", "uint": "none", "float64": "none", "duration": "none"}[kind])
	put(made, "hint", map[bool]string{true: "folder"}[flag.Annotations[cobra.BashCompSubdirsInDir] != nil])
	put(made, "hidden", flag.Hidden || flag.Deprecated != "")
	put(made, "required", isRequired)
	put(made, "repeated", kind == "count" || strings.HasSuffix(kind, "Slice") || strings.HasSuffix(kind, "Array"))
	if takesValue && !isRequired && !strings.Contains("0s <nil> [] false", flag.DefValue) {
		made["default"] = flag.DefValue
	}
	if takesValue && flag.NoOptDefVal != "" {
		made["syntax"] = strings.TrimPrefix("-"+flag.Shorthand+", --"+flag.Name, "-, ") + "[=" + value + "]"
		return made
	}
	put(made, "long", flag.Name)
	put(made, "short", flag.Shorthand)
	if takesValue {
		made["value"] = value
	}
	return made
}

func put(made table, key string, value any) {
	if value != "" && value != false {
		made[key] = value
	}
}
