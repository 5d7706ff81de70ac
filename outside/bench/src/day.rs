//! A portal's day: 100 lines entered, pages made and kept, 10 amendments, looks, pages, kept pages served.

use std::hint::black_box;
use std::time::Instant;

use crate::leveldb::LevelDb;
use crate::portals::Portal;
use crate::sqlite::Sqlite;

const SAMPLES: u32 = 20;
const ANALYTES: u32 = 5;
const LOOKS: u32 = 200;
const ROUNDS: u32 = 4;
const DAYS: usize = 400;
const WHAT: [&str; 4] = ["an entry, carries included", "a look", "a page made", "a kept page served"];

/// Nanoseconds per call of each kind, and what the day showed: values, lengths and the kept pages' bytes.
struct Day {
    nanoseconds: [f64; 4],
    shown: (u64, Vec<Vec<u8>>),
}

/// Times calls and gives the nanoseconds per call.
fn time(calls: u32, work: impl FnOnce()) -> f64 {
    let begun = Instant::now();
    work();
    begun.elapsed().as_nanos() as f64 / f64::from(calls)
}

fn day(portal: &mut dyn Portal) -> Day {
    let mut shown = 0;
    let mut kept = vec![Vec::new(); SAMPLES as usize + 1];
    let lines = || (1..=SAMPLES).flat_map(|sample| (1..=ANALYTES).map(move |analyte| sample * 32 + analyte));
    let entries = time(SAMPLES * ANALYTES, || lines().for_each(|key| portal.enter(key, 3 * key)));
    let mut buffer = [0; olipranj::LONGEST_PAGE];
    for sample in 1..=SAMPLES {
        let length = portal.page(sample, &mut buffer);
        kept[sample as usize] = buffer[..length].to_vec();
    }
    (1..=SAMPLES).step_by(2).for_each(|sample| portal.enter(sample * 32 + 2, sample));
    let looks = time(LOOKS, || {
        for i in 0..LOOKS {
            shown += portal.look(32 + i * 37 % (32 * SAMPLES)).map_or(1, u64::from);
        }
    });
    let pages = time(SAMPLES * ROUNDS, || {
        for i in 0..SAMPLES * ROUNDS {
            shown += portal.page(1 + i % SAMPLES, black_box(&mut buffer)) as u64;
        }
    });
    let serves = time(SAMPLES * ROUNDS, || {
        for i in 0..SAMPLES * ROUNDS {
            let sample = 1 + i % SAMPLES;
            shown += portal.serve(sample, &kept[sample as usize]) as u64;
        }
    });
    Day { nanoseconds: [entries, looks, pages, serves], shown: (shown, kept) }
}

/// A store of one kind, opened for each day anew.
type Open = fn() -> Option<Box<dyn Portal>>;

const PORTALS: [(&str, Open); 4] = [
    ("library", || Some(Box::new(olipranj::Store::fresh(1).ok()?.raw().clone()))),
    ("model", || Some(Box::new(model::Store::empty(1)))),
    ("SQLite", || Some(Box::new(Sqlite::open()?))),
    ("LevelDB", || Some(Box::new(LevelDb::open()?))),
];

/// The best of many days, all portals in turn; all must show the same.
fn best() -> [Option<[f64; 4]>; 4] {
    let mut best = [None; 4];
    let mut shown = None;
    for _ in 0..DAYS {
        for (at, (_, open)) in PORTALS.iter().enumerate() {
            let Some(mut portal) = open() else { continue };
            let day = day(&mut *portal);
            let old = best[at].unwrap_or([f64::MAX; 4]);
            best[at] = Some([0, 1, 2, 3].map(|what| day.nanoseconds[what].min(old[what])));
            assert!(*shown.get_or_insert(day.shown.clone()) == day.shown);
        }
    }
    best
}

/// Prints the table.
pub fn print() {
    let best = best();
    println!("\n| of a portal's day, ns | library | model | SQLite | LevelDB |");
    println!("|---|---|---|---|---|");
    for (what, name) in WHAT.iter().enumerate() {
        let cells = best
            .map(|times| times.map_or("not installed".to_string(), |times| format!("{:.0}", times[what])));
        println!("| {name} | {} |", cells.join(" | "));
    }
    for ((name, _), _) in PORTALS.iter().zip(best).filter(|(_, times)| times.is_none()) {
        println!("\n{name} is left out: it is not installed.");
    }
}
