//! A lead and a standby as two processes over a Unix socket, a world in a file, random play, and kills.

mod arguments;
mod host;
mod mistake;
mod moment;
mod referee;
mod report;
mod run;
mod wire;
mod world;

use std::process::ExitCode;

/// The first argument of a host's process; the second is its place.
const HOST: &str = "host-process";

/// A record is lost, a host refuses, or the demonstration failed.
const FAILED: u8 = 1;
const BAD_ARGUMENTS: u8 = 2;

fn main() -> ExitCode {
    let given: Vec<String> = std::env::args().skip(1).collect();
    if let [first, place] = &given[..] {
        if first == HOST {
            return ended(host::run(place));
        }
    }
    match arguments::parse(&given) {
        Ok(Some(arguments)) => ended(run::run(&arguments)),
        Ok(None) => {
            print!("{}", arguments::HELP);
            ExitCode::SUCCESS
        }
        Err(error) => {
            eprintln!("demonstration: {error}\ntry --help");
            ExitCode::from(BAD_ARGUMENTS)
        }
    }
}

fn ended(result: Result<(), impl std::fmt::Display>) -> ExitCode {
    match result {
        Ok(()) => ExitCode::SUCCESS,
        Err(error) => {
            eprintln!("{error}");
            ExitCode::from(FAILED)
        }
    }
}
