//! Reads a drill file from standard input and prints one line a call, the
//! sequence of each accepted kind 12 on its line.

use std::io;
use std::process::ExitCode;

fn main() -> ExitCode {
    match outside::wire::run(io::stdin().lock(), io::stdout().lock()) {
        Ok(()) => ExitCode::SUCCESS,
        // The reader of our lines went away: nothing left to do.
        Err(e) if e.kind() == io::ErrorKind::BrokenPipe => ExitCode::SUCCESS,
        Err(e) => {
            eprintln!("drill_wire: {e}");
            ExitCode::FAILURE
        }
    }
}
