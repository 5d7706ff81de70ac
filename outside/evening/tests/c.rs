//! The evening file in C: its own test, and both languages read what the other wrote.

use std::path::{Path, PathBuf};
use std::process::Command;
use std::{env, fs};

use evening::{framed, kept};
use olipranj::Store;

/// Compiles the C example and its test.
fn compiled(folder: &Path) -> PathBuf {
    let here = Path::new(env!("CARGO_MANIFEST_DIR"));
    let library = env::var_os("OLIPRANJ_LIB").map_or_else(|| here.join("../target/lib"), PathBuf::from);
    let program = folder.join("test");
    let status = Command::new("cc")
        .args(["-std=c99", "-pedantic", "-Wall", "-Wextra", "-Werror", "-O1", "-I"])
        .args([here.join("../../include"), here.join("c/evening.c"), here.join("c/test.c")])
        .arg(library.join("libolipranj.a"))
        .arg("-o")
        .arg(&program)
        .status()
        .expect("cc runs");
    assert!(status.success());
    program
}

/// Whether the program ends well.
fn ends_well(program: &Path, word: &str, name: &Path) -> bool {
    Command::new(program).arg(word).arg(name).status().expect("it runs").success()
}

#[test]
fn the_c_example_is_the_same() {
    let folder = Path::new(env!("CARGO_TARGET_TMPDIR")).join("c");
    let _ = fs::remove_dir_all(&folder);
    fs::create_dir_all(&folder).expect("a folder");
    let program = compiled(&folder);
    let name = folder.join("evening");
    assert!(ends_well(&program, "write", &name));
    let image = kept(&name).expect("what C wrote");
    assert!(Store::load(&image).is_ok());
    assert_eq!(fs::read(&name).expect("the file"), framed(&image));
    let other = folder.join("other");
    evening::keep(&other, &image).expect("kept");
    assert!(ends_well(&program, "read", &other));
    assert!(!ends_well(&program, "read", &folder.join("none")));
    for length in [4097, 5000] {
        let long = folder.join("long");
        fs::write(&long, framed(&vec![7; length])).expect("written");
        assert!(ends_well(&program, "long", &long));
    }
}
