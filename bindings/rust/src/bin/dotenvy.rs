//! Runs a command with the variables of a `.env` file, as the program of the crate `dotenvy` does.

use std::env;
use std::ffi::{OsStr, OsString};
use std::os::unix::ffi::OsStrExt;
use std::os::unix::process::CommandExt;
use std::process::{self, Command};

const HELP: &str = "Run a command with the variables of a .env file

Usage: dotenvy [OPTIONS] <COMMAND> [ARGS]...

Options:
  -f, --file <FILE>  Load the file of this name [default: .env]
  -h, --help         Print help

The file is searched for in the current directory, then in those above it.
A variable that exists keeps its value.
";

/// What the arguments ask for.
enum Asked {
    Help,
    Run {
        file: OsString,
        command: OsString,
        arguments: Vec<OsString>,
    },
}

fn main() {
    match asked(env::args_os().skip(1)) {
        Ok(Asked::Help) => print!("{}", HELP),
        Ok(Asked::Run {
            file,
            command,
            arguments,
        }) => {
            if let Err(error) = dotenvy::from_filename(file) {
                end(1, &format!("error: failed to load environment: {}", error));
            }
            let error = Command::new(command).args(arguments).exec();
            end(1, &format!("fatal: {}", error));
        }
        Err(fault) => end(2, &fault),
    }
}

fn end(status: i32, text: &str) -> ! {
    eprintln!("{}", text.trim_end());
    process::exit(status)
}

fn asked(mut arguments: impl Iterator<Item = OsString>) -> Result<Asked, String> {
    let mut file = OsString::from(".env");
    let command = loop {
        let argument = arguments.next().ok_or(HELP)?;
        match argument.as_bytes() {
            b"-h" | b"--help" => return Ok(Asked::Help),
            b"-f" | b"--file" => {
                let needs = || format!("error: {} needs a file", argument.to_string_lossy());
                file = arguments.next().ok_or_else(needs)?;
            }
            b"--" => break arguments.next().ok_or(HELP)?,
            word => match file_in(word) {
                Some(name) => file = name,
                None if is_option(word) => {
                    let option = argument.to_string_lossy();
                    return Err(format!("error: there is no option {}\n\n{}", option, HELP));
                }
                None => break argument,
            },
        }
    };
    Ok(Asked::Run {
        file,
        command,
        arguments: arguments.collect(),
    })
}

// The file of an option that has it in the same word.
fn file_in(word: &[u8]) -> Option<OsString> {
    let name = match word.strip_prefix(b"--file=") {
        Some(name) => name,
        None => {
            let name = word.strip_prefix(b"-f")?;
            name.strip_prefix(b"=").unwrap_or(name)
        }
    };
    Some(OsStr::from_bytes(name).to_owned())
}

// Whether a word begins as an option does.
fn is_option(word: &[u8]) -> bool {
    word.len() > 1 && word.starts_with(b"-")
}
