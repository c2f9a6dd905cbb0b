//! Reads a drill file from standard input and prints one line a call.

use std::io;
use std::process::ExitCode;

fn main() -> ExitCode {
    match outside::drill::run(io::stdin().lock(), io::stdout().lock()) {
        Ok(()) => ExitCode::SUCCESS,
        // The reader of our lines went away: nothing left to do.
        Err(e) if e.kind() == io::ErrorKind::BrokenPipe => ExitCode::SUCCESS,
        Err(e) => {
            eprintln!("drill: {e}");
            ExitCode::FAILURE
        }
    }
}
