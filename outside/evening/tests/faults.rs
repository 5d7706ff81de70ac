//! No damaged evening file is taken for good: each bit flipped, each byte at which it can be cut.

use std::fs;
use std::io::ErrorKind;
use std::path::PathBuf;

use evening::{before, damaged, framed, image_in, keep, kept};
use olipranj::Store;

/// The image of a store with results and withdrawn lines in three nodes, small and large numbers.
fn image() -> Vec<u8> {
    let mut store = model::Store::empty(1);
    for number in 0..40 {
        if store.counts[0] == 8 {
            assert!([1, 0].iter().all(|&node| model::carry(&mut store, node, 0).is_done()));
        }
        let (key, value) = (number * 33_000_001, number * 50_000_000);
        let withdrawn = number % 5 == 0;
        let entered =
            if withdrawn { model::withdraw(&mut store, key) } else { model::enter(&mut store, key, value) };
        assert!(entered.is_done());
    }
    let mut buffer = [0; olipranj::LONGEST_IMAGE];
    let saved = model::save(&store, &mut buffer);
    assert!(saved.is_done());
    buffer[..saved.a as usize].to_vec()
}

/// Each way to flip one bit of the bytes.
fn flipped(bytes: &[u8]) -> impl Iterator<Item = Vec<u8>> + '_ {
    (0..8 * bytes.len()).map(|bit| {
        let mut other = bytes.to_vec();
        other[bit / 8] ^= 1 << (bit % 8);
        other
    })
}

/// A folder of its own for a test.
fn folder(name: &str) -> PathBuf {
    let folder = PathBuf::from(env!("CARGO_TARGET_TMPDIR")).join(name);
    let _ = fs::remove_dir_all(&folder);
    fs::create_dir_all(&folder).expect("a folder");
    folder
}

#[test]
fn an_image_alone_cannot_tell() {
    let image = image();
    assert!(Store::load(&image).is_ok());
    let taken = flipped(&image).filter(|other| Store::load(other).is_ok()).count();
    println!("of {} one-bit faults in an image {taken} load", 8 * image.len());
    assert!(taken > 0);
}

#[test]
fn no_damage_is_taken_for_good() {
    let file = framed(&image());
    assert_eq!(image_in(&file), Some(&image()[..]));
    assert!(flipped(&file).all(|other| image_in(&other).is_none()));
    assert!((0..file.len()).all(|length| image_in(&file[..length]).is_none()));
    assert!((0..file.len()).all(|start| start == 0 || image_in(&file[start..]).is_none()));
    let longer: Vec<u8> = file.iter().chain(&[0]).copied().collect();
    assert!(image_in(&longer).is_none());
    assert!((0..64).all(|length| image_in(&vec![0; length]).is_none()));
}

#[test]
fn no_damaged_file_is_taken_for_good() {
    let name = folder("damaged").join("evening");
    let found = || kept(&name).is_err_and(|error| error.kind() == ErrorKind::InvalidData);
    let file = framed(&image());
    for other in flipped(&file).chain((0..file.len()).map(|length| file[..length].to_vec())) {
        fs::write(&name, other).expect("a file");
        assert!(found());
        fs::remove_file(&name).expect("the file goes");
    }
}

#[test]
fn a_file_is_kept_with_the_one_before() {
    let name = folder("kept").join("evening");
    assert_eq!(kept(&name).expect_err("nothing is kept").kind(), ErrorKind::NotFound);
    keep(&name, b"monday").expect("kept");
    assert!(kept(&before(&name)).is_err());
    keep(&name, b"tuesday").expect("kept");
    keep(&name, b"wednesday").expect("kept");
    assert_eq!(kept(&name).expect("the last"), b"wednesday");
    assert_eq!(kept(&before(&name)).expect("the one before"), b"tuesday");
    fs::write(&name, b"damage").expect("a file");
    keep(&name, b"thursday").expect("kept");
    assert_eq!(kept(&name).expect("the last"), b"thursday");
    assert_eq!(kept(&before(&name)).expect("the last good one before"), b"tuesday");
    assert_eq!(fs::read(damaged(&name)).expect("the damaged one"), b"damage");
    let mut names: Vec<_> = fs::read_dir(name.parent().expect("a folder"))
        .expect("the folder")
        .map(|entry| entry.expect("a file").file_name())
        .collect();
    names.sort();
    assert_eq!(names, ["evening", "evening.before", "evening.damaged"]);
}

#[test]
fn what_a_broken_evening_left_is_no_hindrance() {
    let name = folder("broken").join("evening");
    keep(&name, b"monday").expect("kept");
    fs::write(beside(&name, ".new"), b"half a fi").expect("a file");
    fs::hard_link(&name, beside(&name, ".second")).expect("a second name");
    fs::hard_link(&name, before(&name)).expect("a third name");
    keep(&name, b"tuesday").expect("kept");
    assert_eq!(kept(&name).expect("the last"), b"tuesday");
    assert_eq!(kept(&before(&name)).expect("the one before"), b"monday");
    assert!(!beside(&name, ".second").exists() && !beside(&name, ".new").exists());
}

#[test]
fn what_cannot_be_written_leaves_the_old_file() {
    let name = folder("refused").join("evening");
    keep(&name, b"monday").expect("kept");
    fs::create_dir(beside(&name, ".new")).expect("a folder in the way");
    assert!(keep(&name, b"tuesday").is_err());
    assert_eq!(kept(&name).expect("the old file"), b"monday");
    fs::remove_dir(beside(&name, ".new")).expect("the folder goes");
    fs::create_dir(before(&name)).expect("a folder in the way");
    assert!(keep(&name, b"tuesday").is_err());
    assert_eq!(kept(&name).expect("the old file"), b"monday");
}

fn beside(name: &std::path::Path, tail: &str) -> PathBuf {
    PathBuf::from(format!("{}{tail}", name.display()))
}
