//! Writes a clap program as a description in JSON, except what arguments need and exclude other than by groups of which one is given.
use clap::{Arg, ArgAction, Command, ValueHint::*};
use serde_json::{json, Value};

/// The description of the command, and of all below it, as JSON. Global arguments, and `--help`, stand on each page.
pub fn description(command: &mut Command) -> String {
    command.build();
    let mut made = level(command);
    made["help_option"] = command.get_arguments().filter(is_shared).map(option).collect();
    format!("{:#}", without_empty(made))
}

fn is_shared(arg: &&Arg) -> bool {
    matches!(arg.get_action(), ArgAction::Help) || arg.is_global_set()
}

fn level(command: &Command) -> Value {
    let own: Vec<&Arg> = command.get_arguments().filter(|arg| !is_shared(arg)).collect();
    let all: Vec<&str> = own.iter().filter_map(|arg| arg.get_help_heading()).collect();
    let titles = all.iter().enumerate().filter(|(at, title)| !all[..*at].contains(title));
    let mut made = entries(command, &own, None);
    made["name"] = json!(command.get_name());
    made["header"] = json!(command.get_before_help().map(ToString::to_string));
    made["about"] = json!(command.get_long_about().or(command.get_about()).map(ToString::to_string));
    made["footer"] = json!(command.get_after_help().map(ToString::to_string));
    made["group"] = titles.map(|(_, title)| entries(command, &own, Some(title))).collect();
    made["command"] = command.get_subcommands().filter(|one| one.get_name() != "help").map(subcommand).collect();
    let may_stand_alone = command.has_subcommands() && !command.is_subcommand_required_set();
    made["command_required"] = json!(may_stand_alone.then_some(false));
    made
}

fn subcommand(command: &Command) -> Value {
    let mut made = level(command);
    made["help"] = json!(command.get_about().map(ToString::to_string));
    made["aliases"] = command.get_visible_aliases().collect();
    made["hidden"] = json!(command.is_hide_set());
    without_empty(made)
}

// Options, choices and positional values that stand under one title, or under none.
fn entries(command: &Command, own: &[&Arg], title: Option<&str>) -> Value {
    let under: Vec<&Arg> = own.iter().copied().filter(|arg| arg.get_help_heading() == title).collect();
    let (positional, mut options): (Vec<&Arg>, Vec<&Arg>) = under.into_iter().partition(|arg| arg.is_positional());
    let mut choices = Vec::new();
    for group in command.get_groups() {
        let (of_it, others): (Vec<&Arg>, Vec<&Arg>) =
            options.iter().partition(|arg| group.get_args().any(|id| id == arg.get_id()));
        if of_it.len() > 1 && of_it.len() == group.get_args().count() && !group.clone().is_multiple() {
            let chosen: Vec<Value> = of_it.into_iter().map(option).collect();
            choices.push(without_empty(json!({ "required": group.is_required_set(), "option": chosen })));
            options = others;
        }
    }
    without_empty(json!({
        "title": title,
        "option": options.into_iter().map(option).collect::<Vec<_>>(),
        "choice": choices,
        "positional": positional.into_iter().map(positional_value).collect::<Vec<_>>(),
    }))
}

fn option(arg: &Arg) -> Value {
    let mut made = said(arg);
    let short: Vec<char> = arg.get_short_and_visible_aliases().unwrap_or_default();
    let long: Vec<&str> = arg.get_long_and_visible_aliases().unwrap_or_default();
    let range = arg.get_num_args().unwrap_or_default();
    let value = if range.takes_values() { words(arg) } else { String::new() };
    if short.len() < 2 && long.len() < 2 && range.min_values() == range.max_values() && range.max_values() < 2 {
        made["short"] = json!(short.first());
        made["long"] = json!(long.first());
        made["value"] = json!(value);
    } else {
        let names = short.iter().map(|name| format!("-{name}")).chain(long.iter().map(|name| format!("--{name}")));
        let value = if range.min_values() > 0 { format!(" {value}") } else { format!("[={value}]") };
        made["syntax"] = json!(names.collect::<Vec<_>>().join(", ") + if range.takes_values() { &value } else { "" });
    }
    made["required"] = json!(arg.is_required_set().then_some(true));
    made["repeated"] = json!(matches!(arg.get_action(), ArgAction::Append | ArgAction::Count));
    made["env"] = json!(arg.get_env().and_then(|name| name.to_str()));
    without_empty(made)
}

fn positional_value(arg: &Arg) -> Value {
    let mut made = said(arg);
    made["value"] = json!(words(arg));
    made["strict"] = json!(arg.is_last_set());
    made["repeated"] = json!(arg.get_num_args().unwrap_or_default().max_values() > 1);
    made["required"] = json!((!arg.is_required_set() && made["default"] == json!("")).then_some(false));
    without_empty(made)
}

fn said(arg: &Arg) -> Value {
    let takes = arg.get_num_args().unwrap_or_default().takes_values();
    let values = arg.get_possible_values().into_iter().filter(|one| takes && !one.is_hide_set());
    let values: Vec<String> = values.map(|one| one.get_name().to_string()).collect();
    let hints = [(DirPath, "folder"), (Username, "user"), (Hostname, "host"), (Url, "none"), (Other, "none")];
    let defaults = arg.get_default_values().iter().filter(|_| takes && !arg.is_required_set());
    json!({
        "values": values,
        "hint": hints.iter().find(|one| takes && values.is_empty() && one.0 == arg.get_value_hint()).map(|one| one.1),
        "default": defaults.map(|one| one.to_string_lossy()).collect::<Vec<_>>().join(" "),
        "help": arg.get_long_help().or(arg.get_help()).map(ToString::to_string),
        "hidden": arg.is_hide_set(),
    })
}

fn words(arg: &Arg) -> String {
    let names = arg.get_value_names().map(|names| names.iter().map(ToString::to_string).collect::<Vec<_>>());
    names.map_or_else(|| arg.get_id().to_string().to_uppercase(), |names| names.join(" "))
}

// The table without empty values. An argument that is not required says so.
fn without_empty(table: Value) -> Value {
    let mut table = if let Value::Object(table) = table { table } else { return table };
    let empty = [json!(null), json!(false), json!(""), json!([])];
    table.retain(|key, value| !empty.contains(value) || key.ends_with("required") && *value == json!(false));
    Value::Object(table)
}
