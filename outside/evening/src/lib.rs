//! The evening file, an example to copy from and no part of the library: the store's image in a file that is taken for
//! good only whole and undamaged.
//!
//! An image alone cannot tell: with one bit changed it may be the image of another good store, with another figure. So
//! the file is a frame around it ([`framed`]): the image's length in 8 bytes, the image, and in 4 bytes the checksum of
//! all that. A file of another length is refused, whatever it holds; a changed bit is found by the checksum.
//!
//! The file is written beside the old one, brought to the disk and then renamed ([`keep`]), so that at each moment a
//! whole file has the name. The file before it is kept under another name ([`before`]), and so is a damaged one
//! ([`damaged`]). No call here goes back to the file before by itself: it holds older figures, and with them pages that
//! were amended since would be served again.

#![forbid(unsafe_code)]
#![warn(missing_docs)]

mod checksum;
mod file;
mod frame;

pub use checksum::checksum;
pub use file::{before, damaged, keep, kept};
pub use frame::{framed, image_in};
