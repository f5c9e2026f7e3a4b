//! A program with what clap knows, for the comparison of what `clap.rs` makes of it.

#[path = "../../../clap.rs"]
mod clidoc;

use clap::{Arg, ArgAction, ArgGroup, Command, ValueHint};

fn main() {
    let save = Command::new("save")
        .about("Save files")
        .visible_alias("put")
        .arg(Arg::new("files").value_name("FILE").num_args(1..).required(true).help("What to save"))
        .arg(Arg::new("rest").last(true).num_args(0..).value_name("ARGUMENT"))
        .arg(
            Arg::new("color")
                .long("color")
                .num_args(0..=1)
                .require_equals(true)
                .value_name("WHEN")
                .value_parser(["never", "auto"])
                .default_value("auto")
                .help("Colours"),
        )
        .arg(Arg::new("jobs").short('j').long("jobs").value_name("COUNT").env("DEPOT_JOBS").help("How many at once"))
        .arg(Arg::new("exclude").short('x').action(ArgAction::Append).help_heading("Filters"))
        .arg(Arg::new("to").long("to").value_name("FOLDER").value_hint(ValueHint::DirPath).help("Where to"))
        .arg(Arg::new("point").long("point").value_names(["X", "Y"]).help("Where to begin"))
        .arg(Arg::new("name").short('n').visible_short_alias('N').long("name").help("Its name").help_heading("Filters"))
        .arg(Arg::new("all").short('a').long("all").action(ArgAction::SetTrue).help("All files"))
        .arg(Arg::new("only").long("only").value_name("GLOB").help("These alone"))
        .group(ArgGroup::new("which").args(["all", "only"]).required(true));
    let tag = Command::new("tag").about("Work with tags").subcommand_required(true).subcommand(
        Command::new("rename").about("Rename a tag").arg(Arg::new("old").required(true)).arg(Arg::new("new")),
    );
    let mut depot = Command::new("depot")
        .version("1")
        .about("Keeps files in a depot")
        .before_help("Each command has a page.")
        .after_help("See depot.conf.")
        .arg(Arg::new("verbose").short('v').global(true).action(ArgAction::Count).help("Say more"))
        .subcommand(save)
        .subcommand(tag)
        .subcommand(Command::new("old").hide(true));
    println!("{}", clidoc::description(&mut depot));
}
