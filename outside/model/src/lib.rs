//! Document 01 in plain safe Rust, written from its words and not from the proved code.
//!
//! The proved library is compared with this crate call by call, and measured beside it. Each public call on a store
//! tests all store rules first, as the library's calls do.

#![forbid(unsafe_code)]
#![warn(missing_docs)]

mod answer;
mod image;
mod number;
mod page;
mod plan;
mod rules;
mod schedule;
mod steps;
mod store;

pub use answer::{Answer, Number};
pub use image::{load, save};
pub use page::{page, serve, LONGEST_PAGE};
pub use plan::{Edge, Plan, ALL_NODES, NODE_PLACES, PLANS};
pub use rules::good;
pub use schedule::{decode, program, run, Step, PROGRAM_BYTES, STEPS};
pub use steps::{cancel, carry, enter, look, start, step, withdraw};
pub use store::{fresh, Slot, Store, LAST_CLOCK, PLACES, SLOTS};
