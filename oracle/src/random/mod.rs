//! Random calls as frames, the same for the same seed.

mod plan;
mod rng;
mod sim;

use std::io::{self, Write};

use crate::bus;
use crate::call::{Call, MOST_READINGS};
use crate::coded;
use crate::drivers::Drivers;
use crate::frames;
use plan::Plan;
pub use rng::Rng;
use sim::Sim;

/// Draws calls one after the other, keeping the slave's state as a replay of them would.
pub struct Calls {
    rng: Rng,
    drivers: Drivers,
    small: bool,
}

impl Calls {
    pub fn new(seed: u64, small: bool) -> Self {
        Calls { rng: Rng::new(seed), drivers: Drivers::new(), small }
    }

    /// One more call, with the readings that it takes and at times some more.
    pub fn next_call(&mut self) -> Call {
        let mut call = Plan { rng: &mut self.rng, small: self.small }.call();
        let sim = Sim::new(Rng::new(self.rng.next()), call.kind);
        let answer = self.drivers.run(&call, Some(Box::new(sim)));
        bus::with_record(|_, readings| call.readings.extend_from_slice(readings));
        if answer.number == 22 && self.rng.chance(600) {
            bus::with_record(|log, _| coded::correct(&mut call, log, &self.drivers.buffer));
        }
        if self.rng.chance(100) {
            for _ in 0..1 + self.rng.below(4) {
                call.readings.push(self.rng.word());
            }
            call.readings.truncate(MOST_READINGS);
        }
        call
    }

    /// Appends the frames of one more call.
    pub fn put_next(&mut self, out: &mut Vec<u8>) {
        frames::put_call(&self.next_call(), out);
    }
}

/// Prints `count` random calls.
pub fn print(seed: u64, count: u64, output: &mut impl Write) -> io::Result<()> {
    let mut calls = Calls::new(seed, false);
    let mut out = Vec::new();
    for _ in 0..count {
        calls.put_next(&mut out);
        if out.len() >= 1 << 16 {
            output.write_all(&out)?;
            out.clear();
        }
    }
    output.write_all(&out)?;
    output.flush()
}
