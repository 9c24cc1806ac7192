//! The proved I2C driver for the RP2040, for Rust: the static libraries of the crates `export_calls` and `export_steps`
//! behind safe functions.
//!
//! A call is given the words that its register reads return and leaves a log of its accesses, two words an entry ([`Entry`]).
//! [`master`] and [`Slave`] run whole calls; [`Transfer`] drives a master transfer one access at a time.
#![no_std]

mod answers;
mod entries;
pub mod master;
mod raw;
mod slave;
mod transfer;

pub use answers::{Causes, Command, Rate, ReadStatus, Refusal};
pub use entries::{entries, Entry};
pub use slave::Slave;
pub use transfer::{Access, Operation, Transfer};

/// What a call leaves beside the log and the buffer.
#[derive(Clone, Copy, PartialEq, Eq, Debug)]
pub struct Left<T> {
    pub answer: Result<T, Refusal>,
    /// Entries in the log.
    pub entries: usize,
    /// Readings used.
    pub used: usize,
}

impl<T> Left<T> {
    fn new(report: raw::Report, accepted: impl FnOnce(u32) -> T) -> Self {
        Left {
            answer: match report.number {
                0 => Ok(accepted(report.detail)),
                number => Err(Refusal::from_number(number, report.detail)),
            },
            entries: report.entries,
            used: report.used,
        }
    }
}
