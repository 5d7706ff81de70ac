//! A portal's day in Rust, from the first entry to the next morning; `outside/day` runs it. `outside/python/day.py` and
//! `outside/c/day.c` are the same day: they print the same lines and write the same files.
//!
//!     day evening NAME    a day, and its evening file
//!     day morning NAME    the next morning, by another process

use std::collections::BTreeMap;
use std::error::Error;
use std::ops::RangeInclusive;
use std::path::Path;

use olipranj::{Book, Line, PageLines, Saved, Taken};

const HARDNESS: u32 = 1;
const IRON: u32 = 2;
const NITRATE: u32 = 3;
const SAMPLES: RangeInclusive<u32> = 1..=20;
const AMENDED: RangeInclusive<u32> = 1..=10;
const NOTICE: &[u8] = b"This page is being made anew.";

type Ended<T> = Result<T, Box<dyn Error>>;

/// Enters a result, and says so if it is pending. What is pending is kept in the book, and saved with it.
fn entered(book: &mut Book, sample: u32, analyte: u32, value: u32) -> Ended<bool> {
    let line = Line::new(sample, analyte)?;
    let Taken::Pending(refusal) = book.enter(line, value) else {
        return Ok(true);
    };
    let name = refusal.name().map(|name| format!("{name:?}").to_uppercase()).unwrap_or_default();
    println!("{line} pending: {name}");
    Ok(false)
}

/// Three results for each sample.
fn results(book: &mut Book, samples: RangeInclusive<u32>, more: u32) -> Ended<()> {
    for sample in samples {
        entered(book, sample, HARDNESS, 100 + sample + more)?;
        entered(book, sample, IRON, sample + more)?;
        entered(book, sample, NITRATE, 2 * sample + more)?;
    }
    Ok(())
}

/// Whether the kept page is what a household sees, and not the notice.
fn is_shown(book: &Book, sample: u32, kept: &[u8]) -> bool {
    book.serve(sample, kept, NOTICE) == kept
}

/// Makes the sample's page anew if the kept one is not shown. While an entry is pending there is no page: the notice stays.
fn renew(book: &Book, sample: u32, kept: &mut Vec<u8>) -> Ended<()> {
    if !is_shown(book, sample, kept) && book.pending_of(sample).is_none() {
        *kept = book.page(sample)?.into_bytes();
    }
    Ok(())
}

/// Says how many kept pages are shown, and for how many samples the notice.
fn shown(book: &Book, pages: &BTreeMap<u32, Vec<u8>>) {
    let count = pages.iter().filter(|(&sample, kept)| is_shown(book, sample, kept)).count();
    println!("{count} kept pages shown, {} notices", pages.len() - count);
}

fn say(book: &Book, sample: u32, kept: &[u8]) {
    println!(
        "sample {sample}: {}",
        if is_shown(book, sample, kept) { "the kept page" } else { "the notice" }
    );
}

/// A hundred entries, pages kept and served, amendments, the evening file.
fn day(name: &Path) -> Ended<()> {
    let mut book = Book::fresh(1)?;
    results(&mut book, SAMPLES, 0)?;
    let mut pages: BTreeMap<u32, Vec<u8>> = SAMPLES.map(|sample| (sample, Vec::new())).collect();
    for (&sample, kept) in &mut pages {
        renew(&book, sample, kept)?;
    }
    println!("60 entries, {} copies held", book.store().copies());
    shown(&book, &pages);
    results(&mut book, AMENDED, 1)?;
    for sample in AMENDED {
        entered(&mut book, sample, HARDNESS, 200 + sample)?;
    }
    println!("100 entries, {} copies held", book.store().copies());
    shown(&book, &pages);
    for (&sample, kept) in &mut pages {
        renew(&book, sample, kept)?;
    }
    shown(&book, &pages);
    for line in PageLines::read(&pages[&7])? {
        let line = line?;
        println!("{} is {}, stamp {}", line.line, line.value, line.stamp);
    }
    evening::keep(name, &book.save()?.to_bytes())?;
    evening::keep(&page_of(name), &pages[&7])?;
    Ok(())
}

/// The book and a kept page from the files; an amendment; more lines than the store holds.
fn morning(name: &Path) -> Ended<()> {
    let mut book = loaded(name)?;
    let mut kept = evening::kept(&page_of(name))?;
    say(&book, 7, &kept);
    entered(&mut book, 7, HARDNESS, 180)?;
    say(&book, 7, &kept);
    let mut sample = 100;
    while entered(&mut book, sample, HARDNESS, 1)? {
        sample += 1;
    }
    let mut none = Vec::new();
    renew(&book, 7, &mut kept)?;
    renew(&book, sample, &mut none)?;
    say(&book, 7, &kept);
    say(&book, sample, &none);
    entered(&mut book, 7, NITRATE, 99)?;
    renew(&book, 7, &mut kept)?;
    say(&book, 7, &kept);
    evening::keep(name, &book.save()?.to_bytes())?;
    say(&loaded(name)?, 7, &kept);
    Ok(())
}

fn loaded(name: &Path) -> Ended<Book> {
    let book = Book::load(&Saved::read(&evening::kept(name)?)?)?;
    println!("loaded, {} copies held, {} pending", book.store().copies(), book.pending().len());
    Ok(book)
}

fn page_of(name: &Path) -> std::path::PathBuf {
    let mut page = name.as_os_str().to_owned();
    page.push(".page");
    page.into()
}

fn main() -> Ended<()> {
    let words: Vec<String> = std::env::args().skip(1).collect();
    match words.iter().map(String::as_str).collect::<Vec<&str>>()[..] {
        ["evening", name] => day(Path::new(name)),
        ["morning", name] => morning(Path::new(name)),
        _ => Err("two words: evening or morning, and a name".into()),
    }
}
