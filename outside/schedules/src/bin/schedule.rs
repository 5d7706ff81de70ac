//! `bin/schedule`: a schedule's text to bytes, and back.

use std::process::ExitCode;

use schedules::{decoded, fail, from_bytes, from_text, put, read, to_bytes, to_text, Failure, Keys};

const HELP: &str = "\
bin/schedule [FILE]                   text to bytes
bin/schedule --text [--keys] [FILE]   bytes to text; with --keys as plain keys

Without FILE it reads standard input. It writes standard output. The text has the
plan first, and then one step a line, at most 256:

    plan 1                 # a number from 1 to 3; what follows a # is a remark
    enter 1/1 180          # sample 1, analyte 1, value 180; or by its key: enter 33 180
    withdraw 1/1
    carry 0 0              # node, edge
    start 1/1
    step 0                 # slot
    cancel 0

A sample is at most 134217727, an analyte at most 31, every other number at most
4294967295. The key is 32 * sample + analyte.

Status 1: the text has mistakes, or the bytes are refused. Each mistake is said on
standard error with its line, and nothing is written. Status 2: a wrong argument, or
a file that could not be read.
";

/// What the arguments ask for.
#[derive(Default)]
struct Wanted {
    help: bool,
    text: bool,
    keys: bool,
    file: Option<String>,
}

fn main() -> ExitCode {
    let done = wanted(std::env::args().skip(1)).and_then(|wanted| work(&wanted));
    done.map_or_else(|failure| fail("schedule", &failure), |()| ExitCode::SUCCESS)
}

fn wanted(arguments: impl Iterator<Item = String>) -> Result<Wanted, Failure> {
    let mut wanted = Wanted::default();
    for argument in arguments {
        match argument.as_str() {
            "--help" | "-h" => wanted.help = true,
            "--text" => wanted.text = true,
            "--keys" => wanted.keys = true,
            option if option.starts_with('-') => {
                return Err(Failure::unable(format!("there is no option {option}, see --help")))
            }
            _ if wanted.file.is_some() => {
                return Err(Failure::unable("one file at most, see --help".to_string()))
            }
            _ => wanted.file = Some(argument),
        }
    }
    if wanted.keys && !wanted.text {
        return Err(Failure::unable("--keys goes with --text, see --help".to_string()));
    }
    Ok(wanted)
}

fn work(wanted: &Wanted) -> Result<(), Failure> {
    if wanted.help {
        return put(HELP.as_bytes());
    }
    let given = read(wanted.file.as_deref())?;
    if wanted.text {
        let keys = if wanted.keys { Keys::Plain } else { Keys::Lines };
        let schedule = from_bytes(&given).map_err(|answer| Failure::wrong(decoded(&answer, 0)))?;
        return put(to_text(&schedule, keys).as_bytes());
    }
    let schedule = from_text(&given).map_err(|mistakes| {
        Failure::wrong(mistakes.iter().map(ToString::to_string).collect::<Vec<_>>().join("\n"))
    })?;
    put(&to_bytes(&schedule))
}
