//! What both commands do: read a file, write standard output, fail with a status.

use std::fs::File;
use std::io::{self, Read, Write};
use std::process::ExitCode;

/// Why a command ends without its work: what to say, and the status.
#[derive(Clone, Debug, PartialEq, Eq)]
#[allow(missing_docs)]
pub struct Failure {
    pub said: String,
    pub status: u8,
}

impl Failure {
    /// What was given is wrong: status 1.
    pub fn wrong(said: String) -> Failure {
        Failure { said, status: 1 }
    }

    /// The command cannot do its work: status 2.
    pub fn unable(said: String) -> Failure {
        Failure { said, status: 2 }
    }
}

/// Says on standard error why the command ends, and gives its status.
pub fn fail(command: &str, failure: &Failure) -> ExitCode {
    for line in failure.said.lines() {
        eprintln!("{command}: {line}");
    }
    ExitCode::from(failure.status)
}

/// All bytes of a file, or of standard input.
pub fn read(file: Option<&str>) -> Result<Vec<u8>, Failure> {
    let mut bytes = Vec::new();
    let read = match file {
        Some(name) => File::open(name).and_then(|mut file| file.read_to_end(&mut bytes)),
        None => io::stdin().read_to_end(&mut bytes),
    };
    let name = file.unwrap_or("standard input");
    read.map(|_| bytes).map_err(|error| Failure::unable(format!("{name} could not be read: {error}")))
}

/// Writes standard output. A reader that has enough, and closes it, is no failure.
pub fn put(bytes: &[u8]) -> Result<(), Failure> {
    let mut out = io::stdout();
    match out.write_all(bytes).and_then(|()| out.flush()) {
        Err(error) if error.kind() != io::ErrorKind::BrokenPipe => {
            Err(Failure::unable(format!("standard output could not be written: {error}")))
        }
        _ => Ok(()),
    }
}
