//! What `bin/olipranj --explain` ends with: `explain [--picture] SCHEDULE LINES`, a schedule's bytes and the program's
//! lines for it, tells the lines in words.

use std::process::ExitCode;

use schedules::{explain, fail, put, read, Failure, Picture, Told};

fn main() -> ExitCode {
    let mut words: Vec<String> = std::env::args().skip(1).collect();
    let picture = words.first().is_some_and(|word| word == "--picture");
    if picture {
        words.remove(0);
    }
    let done = match words.as_slice() {
        [schedule, lines] => work(schedule, lines, picture),
        _ => Err(Failure::unable("explain [--picture] SCHEDULE LINES".to_string())),
    };
    done.map_or_else(|failure| fail("olipranj", &failure), |()| ExitCode::SUCCESS)
}

fn work(schedule: &str, lines: &str, picture: bool) -> Result<(), Failure> {
    let bytes = read(Some(schedule))?;
    let lines = read(Some(lines))?;
    let (plan, told) = explain(&bytes, &String::from_utf8_lossy(&lines)).map_err(Failure::unable)?;
    let drawn = picture && plan != 0;
    let picture = drawn.then(|| Picture::fresh(plan)).transpose().map_err(Failure::unable)?;
    put(told_text(&told, picture)?.as_bytes())
}

/// The words, and after each step the picture where one is wanted.
fn told_text(told: &[Told], mut picture: Option<Picture>) -> Result<String, Failure> {
    let mut text = String::new();
    for Told { words, of } in told {
        text += words;
        text.push('\n');
        if let (Some(picture), Some((step, answer))) = (&mut picture, of) {
            text += &picture.after(step, answer).map_err(Failure::unable)?;
        }
    }
    Ok(text)
}
