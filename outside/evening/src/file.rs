//! The file: written beside, brought to the disk, renamed; the one before it kept.

use std::ffi::OsString;
use std::fs::{self, File};
use std::io::{self, ErrorKind, Write};
use std::path::{Path, PathBuf};

use crate::{framed, image_in};

/// Where the file before is kept.
pub fn before(path: &Path) -> PathBuf {
    with_tail(path, ".before")
}

/// Where a damaged file, or one that is no evening file, is kept when another takes its name.
pub fn damaged(path: &Path) -> PathBuf {
    with_tail(path, ".damaged")
}

/// Keeps an image under the name. If this fails, the old file or the new one has the name, whole. When it ends well, the
/// new one has it, on the disk, and the one that had it is kept under another name.
pub fn keep(path: &Path, image: &[u8]) -> io::Result<()> {
    let beside = with_tail(path, ".new");
    let mut file = File::create(&beside)?;
    file.write_all(&framed(image))?;
    file.sync_all()?;
    keep_old(path)?;
    fs::rename(&beside, path)?;
    File::open(folder(path))?.sync_all()
}

/// The image that was kept under the name. A file that is cut, longer or damaged is an error, `InvalidData`, and so is
/// one that is no evening file.
pub fn kept(path: &Path) -> io::Result<Vec<u8>> {
    let bytes = fs::read(path)?;
    let refused = || io::Error::new(ErrorKind::InvalidData, format!("{} is damaged", path.display()));
    image_in(&bytes).map(<[u8]>::to_vec).ok_or_else(refused)
}

/// Keeps the file that has the name, if there is one, by whether it is good.
fn keep_old(path: &Path) -> io::Result<()> {
    match kept(path).map_err(|error| (error.kind(), error)) {
        Ok(_) => second_name(path, &before(path)),
        Err((ErrorKind::InvalidData, _)) => second_name(path, &damaged(path)),
        Err((ErrorKind::NotFound, _)) => Ok(()),
        Err((_, error)) => Err(error),
    }
}

/// Gives the file a second name, while it has the first still.
fn second_name(path: &Path, name: &Path) -> io::Result<()> {
    let second = with_tail(path, ".second");
    remove_if_there(&second)?;
    fs::hard_link(path, &second)?;
    fs::rename(&second, name)?;
    // Where both names were of one file already, a rename leaves both.
    remove_if_there(&second)
}

fn remove_if_there(path: &Path) -> io::Result<()> {
    match fs::remove_file(path) {
        Err(error) if error.kind() != ErrorKind::NotFound => Err(error),
        _ => Ok(()),
    }
}

fn folder(path: &Path) -> &Path {
    match path.parent() {
        Some(folder) if folder != Path::new("") => folder,
        _ => Path::new("."),
    }
}

fn with_tail(path: &Path, tail: &str) -> PathBuf {
    let mut name = OsString::from(path);
    name.push(tail);
    name.into()
}
