//! An independent route desk, written from document 01 and orders 1 to 8 of
//! document 02 alone, and what compares the proved desk with it.
//!
//! - `desk`: the task, the machine, opening, Take, limited Take, Bring and path
//!   reading.
//! - `triangles`: opening's check 7, with and without order 5.
//! - `morning`: the events of a list that one call serves.
//! - `map`: the reader of grid maps and the task that a map comes to.
//! - `taskfile`: the task file's reader and writer, and the text `deskrun` prints.
//! - `rows`: the interface by number rows that both desks are called through.
//! - `library`: the proved desk behind that interface (the only unsafe code).
//! - `maker`: random tasks, machines, calls, buffers and files, from a seed.
//! - `demand`: what demand 3 asks of a run, checked with an own Dijkstra, and
//!   what the orders ask of a Wait, a morning, a map, an opening, a file, a limited
//!   Take and the stored keys.
//! - `compare`: one case of the comparison.
//! - `desks`: both desks, called alike.
//! - `samples`: the sample maps and task files.
//! - `tally`: counts of what the cases met.
//! - `runs`: the runs of document 01, and the orders' own, for either desk.
//!
//! ```text
//! cargo test --offline                            self-tests, without the library
//! cargo run --release --offline --bin compare -- --self
//! DESK_LIB_DIR=FOLDER cargo build --release --offline
//! target/release/compare --cases 100000 --seed 1
//! target/release/compare --maps ../../samples/maps
//! target/release/compare --samples ../../samples
//! target/release/bench
//! target/release/bench --counts                   exact counts alone, no clock
//! ```

#![deny(unsafe_code)]

pub mod compare;
pub mod demand;
pub mod desk;
pub mod desks;
#[cfg(desk_library)]
#[allow(unsafe_code)]
pub mod library;
pub mod maker;
pub mod map;
pub mod morning;
pub mod rows;
pub mod runs;
pub mod samples;
pub mod tally;
pub mod taskfile;
#[cfg(test)]
mod tests;
pub mod triangles;

/// The proved desk, if this was built with it.
pub fn library() -> Option<&'static dyn rows::RowDesk> {
    #[cfg(desk_library)]
    return Some(&library::Library);
    #[cfg(not(desk_library))]
    None
}
