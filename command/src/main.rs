//! The program `speldervacht`.

use speldervacht_command::{run, Failure};
use std::ffi::OsString;
use std::io::{stdin, stdout, BufWriter, ErrorKind, Write};
use std::process::ExitCode;

const FAILED: u8 = 2;

fn main() -> ExitCode {
    let given: Vec<OsString> = std::env::args_os().skip(1).collect();
    let mut out = BufWriter::new(stdout().lock());
    let ended = run(&given, &mut stdin().lock(), &mut out);
    let ended = out.flush().map_err(Failure::Output).and(ended);
    match ended {
        Ok(status) => ExitCode::from(status.number()),
        Err(failure) => {
            tell(failure);
            ExitCode::from(FAILED)
        }
    }
}

fn tell(failure: Failure) {
    match failure {
        Failure::Usage(why) => eprintln!("speldervacht: {why}\nspeldervacht --help tells the commands"),
        Failure::Input(why) => eprintln!("speldervacht: {why}"),
        // Whoever reads the output has gone.
        Failure::Output(error) if error.kind() == ErrorKind::BrokenPipe => {}
        Failure::Output(error) => eprintln!("speldervacht: the output cannot be written: {error}"),
    }
}
