//! The program: hands crop files to the proved functions and shows what they answer.
mod arguments;
mod beside;
mod blanking;
mod certificate;
mod changes;
mod commands;
mod counts;
mod csv;
mod ellipse;
mod files;
mod image;
mod inputs;
mod json;
mod kept;
mod layout;
mod missed;
mod output;
mod parallel;
mod program;
mod progress;
mod redacting;
mod run;
mod svg;
mod table;

use commands::{COMMANDS, Command};
use output::{Problem, complain, print};
use std::{env, ffi::OsString, process::ExitCode};

fn main() -> ExitCode {
    let args: Vec<OsString> = env::args_os().skip(1).collect();
    let Some((name, rest)) = args.split_first() else {
        return usage("no command is named", &overview());
    };
    if name == "--help" || name == "-h" {
        return finish("", &overview(), Err(Problem::Help));
    }
    match COMMANDS.iter().find(|command| name == command.name) {
        Some(Command {
            name, help, run, ..
        }) => finish(name, help, run(rest)),
        None => usage(&format!("unknown command: {}", name.display()), &overview()),
    }
}

/// What the program's own `--help` prints.
fn overview() -> String {
    let mut text = String::from("Usage: bullseye COMMAND ..\n\nCommands:\n");
    for Command { name, what, .. } in COMMANDS {
        text += &format!("  {name:8} {what}\n");
    }
    text + "\n`bullseye COMMAND --help` tells a command's arguments and its exit status.\n"
}

/// The exit status of a command, after what went wrong has been named.
fn finish(name: &str, help: &str, result: Result<bool, Problem>) -> ExitCode {
    match result {
        Ok(true) => ExitCode::SUCCESS,
        Ok(false) | Err(Problem::Closed) => ExitCode::FAILURE,
        Err(Problem::Failed(reason)) => {
            complain(&reason);
            ExitCode::FAILURE
        }
        Err(Problem::Trouble(reason)) => {
            complain(&reason);
            ExitCode::from(2)
        }
        Err(Problem::Usage(problem)) => usage(&format!("{name}: {problem}"), help),
        Err(Problem::Help) => match print(help.as_bytes()) {
            Ok(()) => ExitCode::SUCCESS,
            Err(_) => ExitCode::FAILURE,
        },
    }
}

/// Names a mistake in the arguments, with the help that would have avoided it.
fn usage(problem: &str, help: &str) -> ExitCode {
    complain(&format!("{problem}\n\n{}", help.trim_end()));
    ExitCode::from(2)
}
