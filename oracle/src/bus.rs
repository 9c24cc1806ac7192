//! What stands in for the controller: readings go in, a log of accesses and marks comes out.
//!
//! The drivers reach registers through values without state, so the state is one per thread.
//! A call that must end in the middle of the original code unwinds out of the access; whatever
//! the code did since the access before has then been done, and nothing after it.

use std::cell::RefCell;
use std::panic::{AssertUnwindSafe, catch_unwind, resume_unwind};

pub const LOG_ROOM: usize = 8192;

#[derive(Clone, Copy, PartialEq, Eq, Debug)]
pub enum Entry {
    Read(u8, u32),
    Write(u8, u32),
    Pending,
    BlockReset,
}

/// Why a run ended before the driver answered.
#[derive(Clone, Copy)]
pub enum Ended {
    ReadingsUsedUp,
    LogFull,
    LevelTooHigh(u32),
}

/// Makes up the reading of a register, given the log so far; none ends the readings.
pub trait Chooser {
    fn choose(&mut self, offset: u8, log: &[Entry]) -> Option<u32>;
}

struct Bus {
    /// While the drivers are constructed every reading is 0 and nothing is logged.
    running: bool,
    clock: u32,
    log: Vec<Entry>,
    readings: Vec<u32>,
    used: usize,
    chooser: Option<Box<dyn Chooser>>,
}

thread_local! {
    static BUS: RefCell<Bus> = const {
        RefCell::new(Bus {
            running: false,
            clock: 0,
            log: Vec::new(),
            readings: Vec::new(),
            used: 0,
            chooser: None,
        })
    };
}

impl Bus {
    /// A full log is found before used-up readings.
    fn read(&mut self, offset: u8) -> Result<u32, Ended> {
        if !self.running {
            return Ok(0);
        }
        if self.log.len() == LOG_ROOM {
            return Err(Ended::LogFull);
        }
        let value = self.next_reading(offset).ok_or(Ended::ReadingsUsedUp)?;
        self.log.push(Entry::Read(offset, value));
        Ok(value)
    }

    fn next_reading(&mut self, offset: u8) -> Option<u32> {
        if self.used == self.readings.len() {
            let made = self.chooser.as_mut()?.choose(offset, &self.log)?;
            self.readings.push(made);
        }
        self.used += 1;
        Some(self.readings[self.used - 1])
    }

    fn put(&mut self, entry: Entry) -> Result<(), Ended> {
        if !self.running {
            return Ok(());
        }
        if self.log.len() == LOG_ROOM {
            return Err(Ended::LogFull);
        }
        self.log.push(entry);
        Ok(())
    }
}

pub fn read(offset: u8) -> u32 {
    BUS.with_borrow_mut(|bus| bus.read(offset)).unwrap_or_else(|ended| end(ended))
}

pub fn write(offset: u8, value: u32) {
    BUS.with_borrow_mut(|bus| bus.put(Entry::Write(offset, value))).unwrap_or_else(|ended| end(ended))
}

pub fn mark(entry: Entry) {
    BUS.with_borrow_mut(|bus| bus.put(entry)).unwrap_or_else(|ended| end(ended))
}

pub fn clock() -> u32 {
    BUS.with_borrow(|bus| bus.clock)
}

pub fn set_clock(clock: u32) {
    BUS.with_borrow_mut(|bus| bus.clock = clock);
}

/// Leaves the call. `resume_unwind` runs no panic hook, so nothing is printed.
#[cold]
pub fn end(ended: Ended) -> ! {
    resume_unwind(Box::new(ended))
}

/// Runs a call over the readings given, and over those of `chooser` once they are used up.
pub fn run<R>(readings: &[u32], chooser: Option<Box<dyn Chooser>>, call: impl FnOnce() -> R) -> Result<R, Ended> {
    BUS.with_borrow_mut(|bus| {
        bus.running = true;
        bus.log.clear();
        bus.readings.clear();
        bus.readings.extend_from_slice(readings);
        bus.used = 0;
        bus.chooser = chooser;
    });
    let result = catch_unwind(AssertUnwindSafe(call));
    BUS.with_borrow_mut(|bus| bus.running = false);
    result.map_err(|payload| match payload.downcast::<Ended>() {
        Ok(ended) => *ended,
        // A panic of the driver itself, which the numbers should have kept away.
        Err(other) => resume_unwind(other),
    })
}

/// Lends the log and the readings of the latest run.
pub fn with_record<R>(f: impl FnOnce(&[Entry], &[u32]) -> R) -> R {
    BUS.with_borrow(|bus| f(&bus.log, &bus.readings))
}
