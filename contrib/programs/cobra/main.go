// A program with what cobra knows, for the comparison of what `cobra.go` makes of it.
package main

import (
	"os"

	"sample/clidoc"

	"github.com/spf13/cobra"
)

func main() {
	root := &cobra.Command{Use: "depot", Short: "keep files", Long: "Keeps files in a depot.", Version: "1"}
	root.PersistentFlags().BoolP("verbose", "v", false, "say more")
	root.PersistentFlags().String("config", "depot.conf", "read settings from `FILE`")
	root.AddGroup(&cobra.Group{ID: "tags", Title: "Work with tags"})

	save := &cobra.Command{Use: "save FILE... [TARGET]", Aliases: []string{"put", "s"}, Short: "save files",
		Example: "  depot save a b", Run: func(*cobra.Command, []string) {}}
	save.Flags().StringSliceP("exclude", "x", nil, "leave out what `GLOB` names")
	save.Flags().String("color", "auto", "colours, `WHEN` they are shown")
	save.Flags().Lookup("color").NoOptDefVal = "always"
	save.Flags().CountP("quick", "q", "be quick")
	save.Flags().IntP("jobs", "j", 4, "how many at once")
	save.Flags().String("to", "", "where to")
	save.MarkFlagDirname("to")
	save.Flags().String("old", "", "an older one")
	save.MarkFlagRequired("to")
	save.Flags().MarkHidden("old")

	tag := &cobra.Command{Use: "tag", Short: "work with tags", GroupID: "tags"}
	tag.PersistentFlags().Bool("force", false, "whatever is there")
	tag.AddCommand(&cobra.Command{Use: "rename OLD NEW", Short: "rename a tag", Run: func(*cobra.Command, []string) {}})
	find := &cobra.Command{Use: "find [-a | -b] NAME", Short: "find a tag", Hidden: true, Run: func(*cobra.Command, []string) {}}
	tag.AddCommand(find)
	root.AddCommand(save, tag)
	if err := clidoc.Write(os.Stdout, root); err != nil {
		panic(err)
	}
}
