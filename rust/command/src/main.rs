//! The command `seamwillow`: what will a stream do, and may it be loaded.
//!
//! It shows what the proved library answers and decodes nothing itself.

mod arguments;
mod commands;
mod compiled;
mod desk;
mod effects;
mod failure;
mod files;
mod guess;
mod image;
mod input;
mod json;
mod output;
mod part;
mod picture;
mod refusal;
mod runs;
mod usage;
mod verdict;
mod walk;
mod words;

use arguments::{Arguments, Flag};
use commands::{build, check, explain, layout, load, map, tables};
use failure::Failure;
use std::env;
use std::ffi::OsString;
use std::process::ExitCode;
use usage::{Help, Place};

/// A subcommand: its name, the options it takes, its help and what it does.
struct Command {
    name: &'static str,
    flags: &'static [Flag],
    help: Help,
    run: fn(&Arguments) -> Result<(), Failure>,
}

const fn command(
    name: &'static str,
    flags: &'static [Flag],
    help: Help,
    run: fn(&Arguments) -> Result<(), Failure>,
) -> Command {
    Command {
        name,
        flags,
        help,
        run,
    }
}

const COMMANDS: [Command; 9] = [
    command(
        "check",
        &[Flag::Json, Flag::Quiet],
        usage::CHECK,
        check::run,
    ),
    command("explain", &[Flag::All], usage::EXPLAIN, explain::run),
    command(
        "map",
        &[Flag::Image, Flag::Svg, Flag::Html],
        usage::MAP,
        map::run,
    ),
    command("load", &[Flag::Image, Flag::Output], usage::LOAD, load::run),
    command("build", &[Flag::Output], usage::BUILD, build::run),
    command("layout", &[], usage::LAYOUT, layout::run),
    command("parts", &[Flag::Json], usage::PARTS, tables::parts),
    command("frame", &[Flag::Json], usage::FRAME, tables::frame),
    command("numbers", &[], usage::NUMBERS, tables::numbers),
];

fn main() -> ExitCode {
    let words: Vec<OsString> = env::args_os().skip(1).collect();
    match run(words) {
        Ok(()) => ExitCode::SUCCESS,
        Err(failure) => {
            failure.tell();
            ExitCode::from(failure.status())
        }
    }
}

fn run(mut words: Vec<OsString>) -> Result<(), Failure> {
    if words.is_empty() {
        return Err(Failure::usage("a command is missing"));
    }
    let name = words.remove(0);
    match name.to_str() {
        Some("--help" | "-h") => return output::print(usage::SEAMWILLOW),
        Some("--version" | "-V") => return output::print(usage::VERSION),
        Some("help") => return help(&words),
        _ => {}
    }
    let command = named(&name)?;
    let mut known = command.flags.to_vec();
    known.push(Flag::Quiet);
    if command.help.place >= Place::Part {
        known.extend(arguments::PART);
    }
    if command.help.place >= Place::Range {
        known.extend(arguments::RANGE);
    }
    let arguments = Arguments::parse(words, &known)?;
    if arguments.help {
        return output::print(&command.help.text());
    }
    if arguments.version {
        return output::print(usage::VERSION);
    }
    // A command that is told a part takes files.
    if command.help.place >= Place::Part {
        files::judge(&arguments)?;
    }
    (command.run)(&arguments)
}

fn named(name: &OsString) -> Result<&'static Command, Failure> {
    let unknown = || {
        let name = name.to_string_lossy();
        Failure::usage(format!("unknown command {}", words::seen(&name)))
    };
    let found = COMMANDS.iter().find(|command| name == command.name);
    found.ok_or_else(unknown)
}

fn help(words: &[OsString]) -> Result<(), Failure> {
    match words {
        [] => output::print(usage::SEAMWILLOW),
        [name] => output::print(&named(name)?.help.text()),
        [_, more, ..] => Err(arguments::unexpected(more)),
    }
}
