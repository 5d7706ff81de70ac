//! The sizes and offsets of this crate's types, and the answer numbers, are those of the C header; and a library of
//! another layout is refused.

use std::fs;
use std::mem::{offset_of, size_of};
use std::path::Path;
use std::process::Command;

use olipranj::{Answer, Number, Raw, Slot};

/// The layout that this crate is for, by its words about another library.
const LAYOUT: usize = 1;

fn declared_here() -> Vec<usize> {
    let mut all = vec![
        size_of::<Slot>(),
        offset_of!(Slot, running),
        offset_of!(Slot, key),
        offset_of!(Slot, node),
        offset_of!(Slot, visits),
        size_of::<Raw>(),
        offset_of!(Raw, plan),
        offset_of!(Raw, clock),
        offset_of!(Raw, counts),
        offset_of!(Raw, keys),
        offset_of!(Raw, kinds),
        offset_of!(Raw, values),
        offset_of!(Raw, stamps),
        offset_of!(Raw, slots),
        size_of::<Answer>(),
        offset_of!(Answer, number),
        offset_of!(Answer, a),
        offset_of!(Answer, b),
        offset_of!(Answer, c),
        offset_of!(Answer, d),
        size_of::<usize>(),
        LAYOUT,
    ];
    all.extend(Number::ALL.iter().map(|&number| number as usize));
    all
}

/// Compiles and runs `layout.c`, which prints the same numbers from the header.
fn declared_in_the_header() -> Vec<usize> {
    let here = Path::new(env!("CARGO_MANIFEST_DIR"));
    let program = Path::new(env!("CARGO_TARGET_TMPDIR")).join("layout");
    let compiled = Command::new("cc")
        .arg("-Wall")
        .arg("-Werror")
        .arg("-I")
        .arg(here.join("../../include"))
        .arg(here.join("tests/layout.c"))
        .arg("-o")
        .arg(&program)
        .status()
        .expect("cc runs");
    assert!(compiled.success());
    let printed = Command::new(&program).output().expect("the compiled program runs").stdout;
    let words = String::from_utf8(printed).expect("numbers");
    words.split_whitespace().map(|word| word.parse().expect("a number")).collect()
}

#[test]
fn layout_is_the_headers() {
    assert_eq!(declared_here(), declared_in_the_header());
}

#[test]
fn sizes_are_the_documented_ones() {
    assert_eq!(size_of::<Raw>(), 8360);
    assert_eq!(size_of::<Answer>(), 40);
    assert_eq!(size_of::<olipranj::Store>(), size_of::<Raw>());
}

/// A library of another layout, in which every other call ends the program.
const OTHER_LIBRARY: &str = "
    #include <stdlib.h>
    unsigned olipranj_layout(void) { return 2; }
    #define ENDS(name) void olipranj_##name(void) { abort(); }
    ENDS(fresh) ENDS(step) ENDS(good) ENDS(look) ENDS(save) ENDS(load) ENDS(page) ENDS(serve)
";

/// A program on that library: it prints what each way to a store says.
const OTHER_PROGRAM: &str = "
    use olipranj::{Raw, Store};
    fn main() {
        for store in [Store::fresh(1), Store::load(&[1, 1]), Store::from_raw(Raw::ZERO)] {
            println!(\"{}\", store.expect_err(\"a refusal\"));
        }
    }
";

/// Runs a command in a folder; it must end well.
fn run(folder: &Path, words: &[&str]) -> Vec<u8> {
    let ended = Command::new(words[0]).args(&words[1..]).current_dir(folder).output().expect("it runs");
    assert!(ended.status.success(), "{words:?}: {}", String::from_utf8_lossy(&ended.stderr));
    ended.stdout
}

#[test]
fn a_library_of_another_layout_is_refused() {
    let folder = Path::new(env!("CARGO_TARGET_TMPDIR")).join("another_layout");
    let crate_file = Path::new(env!("CARGO_MANIFEST_DIR")).join("src/lib.rs");
    fs::create_dir_all(&folder).expect("a folder");
    fs::write(folder.join("other.c"), OTHER_LIBRARY).expect("written");
    fs::write(folder.join("program.rs"), OTHER_PROGRAM).expect("written");
    run(&folder, &["cc", "-c", "other.c", "-o", "other.o"]);
    run(&folder, &["ar", "rcs", "libolipranj.a", "other.o"]);
    let crate_file = crate_file.to_str().expect("a path in UTF-8");
    let library = ["-L", ".", "-l", "static=olipranj", crate_file];
    run(
        &folder,
        &[&["rustc", "--edition", "2021", "--crate-type", "rlib", "--crate-name", "olipranj"], &library[..]]
            .concat(),
    );
    run(&folder, &["rustc", "--edition", "2021", "--extern", "olipranj=libolipranj.rlib", "program.rs"]);
    let said = run(&folder, &["./program"]);
    let words = format!("the library has layout 2, and this crate is for layout {LAYOUT}\n");
    assert_eq!(String::from_utf8_lossy(&said), words.repeat(3));
}
