//! Schedules as text, one step a line, and the lines that the program prints for one in words.
//!
//! Nothing here is proved. The numbers in the words are those of the proved program's lines, and the picture is of a store
//! behind the proved library's calls, whose answers must be the program's.

#![forbid(unsafe_code)]
#![warn(missing_docs)]

mod bytes;
mod command;
mod lines;
#[cfg(feature = "library")]
mod picture;
mod steps;
mod text;
mod words;

pub use bytes::{from_bytes, to_bytes};
pub use command::{fail, put, read, Failure};
pub use lines::{explain, Told};
#[cfg(feature = "library")]
pub use picture::Picture;
pub use steps::{shown, shown_key, Keys, Part, StepForm, FORMS};
pub use text::{from_text, to_text, Mistake};
pub use words::{answered, decoded};

/// A schedule: its plan's number and its steps.
#[derive(Clone, Debug, PartialEq, Eq)]
#[allow(missing_docs)]
pub struct Schedule {
    pub plan: u32,
    pub steps: Vec<model::Step>,
}
