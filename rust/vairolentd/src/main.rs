//! vairolentd: serves System V semaphores to local programs, by the proved service.

use std::io::{self, Write};
use std::process::ExitCode;

use vairolentd::arguments::{Arguments, USAGE};
use vairolentd::{ask_status, recover, say, serve};

fn main() -> ExitCode {
    let done = match Arguments::read() {
        Ok(Arguments::Help) => writeln!(io::stdout(), "{USAGE}"),
        Ok(Arguments::Status { socket }) => ask_status(&socket),
        Ok(Arguments::Recover { folder }) => recover(&folder).map(|_| ()),
        Ok(Arguments::Serve { socket, folder, mode, with_lines }) => {
            serve(&socket, &folder, mode, with_lines)
        }
        Err(words) => {
            say(words);
            let _ = writeln!(io::stderr(), "{USAGE}");
            return ExitCode::from(2);
        }
    };
    match done {
        Ok(()) => ExitCode::SUCCESS,
        Err(error) => {
            say(error);
            ExitCode::FAILURE
        }
    }
}
