//! The proved driver on the oracle's calls, in process: whole calls over readings and log, and transfers by steps.

pub mod ideal;
pub mod stepped;
pub mod whole;

use celadonsaw::{Entry, Refusal};
use oracle::bus;
use oracle::call::Answer;

/// An answer in numbers, as the oracle has them.
fn numbers<T>(answer: Result<T, Refusal>, detail: impl FnOnce(T) -> u32) -> Answer {
    match answer {
        Ok(accepted) => Answer::with(0, detail(accepted)),
        Err(refusal) => {
            let (number, detail) = refusal.number_and_detail();
            Answer::with(number, detail)
        }
    }
}

/// An entry of the oracle's log.
pub fn entry(entry: Entry) -> bus::Entry {
    match entry {
        Entry::Read(offset, value) => bus::Entry::Read(offset, value),
        Entry::Write(offset, value) => bus::Entry::Write(offset, value),
        Entry::Pending => bus::Entry::Pending,
        Entry::BlockReset => bus::Entry::BlockReset,
    }
}
