//! The stored sample: named calls for each form, number and corner, and malformed files.

mod clock;
mod coded;
mod malformed;
mod master;
mod slave;
mod unacknowledged;

use std::fs;
use std::io;
use std::path::Path;

use crate::bus::{self, Chooser, Entry};
use crate::call::{Answer, Call, Kind, Operation};
use crate::drivers::Drivers;
use crate::frames;
use crate::offsets::*;
use crate::replay::replay;

/// For a register, its readings in order; the last one stays.
pub type Rule = (u8, Vec<u32>);

/// Readings by register. Without a rule they let a master's transfer succeed at once.
struct Script {
    rules: Vec<(u8, Vec<u32>, usize)>,
    left: usize,
    bytes: u32,
}

impl Chooser for Script {
    fn choose(&mut self, offset: u8, _log: &[Entry]) -> Option<u32> {
        self.left = self.left.checked_sub(1)?;
        if let Some((_, readings, used)) = self.rules.iter_mut().find(|rule| rule.0 == offset) {
            *used += 1;
            return Some(readings[(*used - 1).min(readings.len() - 1)]);
        }
        Some(match offset {
            RAW_INTR_STAT => 0x210,
            RXFLR => 16,
            SDA_HOLD => 1,
            CON => 0x65,
            DATA_CMD => {
                self.bytes += 1;
                0xA0 + self.bytes % 0x50
            }
            _ => 0,
        })
    }
}

pub struct Vectors {
    drivers: Drivers,
    frames: Vec<u8>,
    names: String,
    lines: usize,
}

impl Vectors {
    /// Adds a call whose readings follow the rules.
    pub fn add(&mut self, name: &str, call: Call, rules: &[Rule]) {
        self.add_cut(name, call, rules, usize::MAX);
    }

    /// Adds a call that gets at most `left` readings.
    pub fn add_cut(&mut self, name: &str, mut call: Call, rules: &[Rule], left: usize) {
        self.read(&mut call, rules, left);
        self.put(name, &call);
    }

    /// Adds a call whose readings follow the rules, but that the packet error code which it fetches is right.
    pub fn add_right(&mut self, name: &str, mut call: Call, rules: &[Rule]) {
        if self.read(&mut call, rules, usize::MAX).number == 22 {
            bus::with_record(|log, _| crate::coded::correct(&mut call, log, &self.drivers.buffer));
        }
        self.put(name, &call);
    }

    /// Runs the call, and gives it the readings that it took.
    fn read(&mut self, call: &mut Call, rules: &[Rule], left: usize) -> Answer {
        let rules = rules.iter().map(|(offset, readings)| (*offset, readings.clone(), 0)).collect();
        let given = call.readings.len();
        let answer = self.drivers.run(call, Some(Box::new(Script { rules, left, bytes: 0 })));
        bus::with_record(|_, readings| call.readings.extend_from_slice(&readings[given..]));
        answer
    }

    fn put(&mut self, name: &str, call: &Call) {
        self.names += &format!("{} {name}\n", self.lines + 1);
        let before = self.frames.len();
        frames::put_call(call, &mut self.frames);
        self.lines += self.frames[before..].iter().filter(|byte| **byte == b'\n').count();
    }

    /// Adds the call once for each number of readings below those it needs.
    pub fn add_each_cut(&mut self, name: &str, call: Call, rules: &[Rule], needed: usize) {
        for left in 0..needed {
            self.add_cut(&format!("{name}, readings used up after {left}"), call.clone(), rules, left);
        }
        self.add(&format!("{name}, readings enough"), call, rules);
    }
}

/// Bytes that differ from their neighbours.
pub fn bytes(count: usize) -> Vec<u8> {
    (0..count).map(|index| 0x11u8.wrapping_add(index as u8)).collect()
}

/// A master's call: writes of so many bytes and reads of such lengths.
pub fn master(form: u8, address: u16, operations: &[Operation]) -> Call {
    let mut call = Call::new(Kind::Master { form, address });
    call.operations.extend_from_slice(operations);
    let written = operations.iter().map(|op| if let Operation::Write(length) = op { *length } else { 0 }).sum();
    call.bytes = bytes(written);
    call
}

/// Writes the sample into `folder`: calls with answers and names, and malformed files with answers.
pub fn write(folder: &Path) -> io::Result<()> {
    let mut vectors = Vectors { drivers: Drivers::new(), frames: Vec::new(), names: String::new(), lines: 0 };
    clock::add(&mut vectors);
    master::add(&mut vectors);
    slave::add(&mut vectors);
    coded::add(&mut vectors);
    unacknowledged::add(&mut vectors);
    fs::create_dir_all(folder.join("malformed"))?;
    write_pair(folder, "calls", &vectors.frames)?;
    fs::write(folder.join("calls.names"), vectors.names)?;
    for (name, text) in malformed::files() {
        write_pair(&folder.join("malformed"), name, text.as_bytes())?;
    }
    Ok(())
}

fn write_pair(folder: &Path, name: &str, frames: &[u8]) -> io::Result<()> {
    let mut answers = Vec::new();
    replay(frames, &mut answers)?;
    fs::write(folder.join(format!("{name}.frames")), frames)?;
    fs::write(folder.join(format!("{name}.answers")), answers)
}
