//! What the tests of calls share.

use celadonsaw::{entries, Access, Entry, Left, Refusal, Transfer};

const ROOM: usize = 256;

/// The log of a call, as entries.
pub fn logged<T>(call: impl FnOnce(&mut [u32]) -> Left<T>) -> (Result<T, Refusal>, Vec<Entry>, usize) {
    let mut log = [0; 2 * ROOM];
    let left = call(&mut log);
    (left.answer, entries(&log, left.entries).collect(), left.used)
}

/// A transfer's steps over readings, as a whole call would do them. By turns in one call and in two: both are to do the same.
pub fn stepped(mut transfer: Transfer, readings: &[u32]) -> (Result<(), Refusal>, Vec<Entry>, usize) {
    let mut log = Vec::new();
    let mut used = 0;
    let mut access = transfer.next_access();
    loop {
        let mut value = 0;
        match access {
            Access::Read(offset) => {
                let Some(reading) = readings.get(used) else { return (Err(Refusal::OutOfReadings), log, used) };
                value = *reading;
                used += 1;
                log.push(Entry::Read(offset, value));
            }
            Access::Write(offset, word) => log.push(Entry::Write(offset, word)),
            Access::Pending => log.push(Entry::Pending),
            Access::Ended(answer) => return (answer, log, used),
        }
        access = if log.len() % 2 == 0 {
            transfer.step(value)
        } else {
            transfer.advance(value);
            transfer.next_access()
        };
    }
}

/// Readings that are levels, causes of interrupts and bytes at once, so that transfers get somewhere.
pub fn readings(seed: u32) -> Vec<u32> {
    let mut state = seed;
    let mut next = || {
        state = state.wrapping_mul(1_664_525).wrapping_add(1_013_904_223);
        state >> 8
    };
    (0..120)
        .map(|_| match next() % 4 {
            0 => 0,
            1 => 0x210,
            2 => next() % 17,
            _ => next() & 0xF3F,
        })
        .collect()
}
