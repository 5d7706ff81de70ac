//! Measures the proved library's calls beside the model's, and a portal's day beside SQLite and LevelDB.
//!
//!     bench [calls | stamps | day]

mod calls;
mod databases;
mod day;
mod dynamic;
mod leveldb;
mod measure;
mod portals;
mod sqlite;
mod stamps;
mod stores;

fn main() {
    let part = std::env::args().nth(1);
    let wanted = |name| part.as_deref().is_none_or(|part| part == name);
    if wanted("calls") {
        calls::print();
    }
    if wanted("stamps") {
        stamps::print();
    }
    if wanted("day") {
        day::print();
    }
}
