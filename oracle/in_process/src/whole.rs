//! Whole calls of the proved driver.

use celadonsaw::{Left, Slave, entries, master};
use oracle::bus::{self, LOG_ROOM};
use oracle::call::{Answer, Call, Kind, Operation};

use crate::{entry, numbers};

/// The proved driver with its lent log, the latest call's buffer, and the slave's state, which lasts.
pub struct Rattle {
    pub slave: Slave,
    pub buffer: Vec<u8>,
    log: Vec<u32>,
    entries: usize,
    pub used: usize,
    kinds: Vec<u8>,
    lengths: Vec<u16>,
}

/// A length as the calls take it. One above 16 bits is over the limits, and so is this.
fn length(count: usize) -> u16 {
    count.try_into().unwrap_or(u16::MAX)
}

impl Rattle {
    pub fn new((pending_byte, address, general_call): (Option<u8>, u16, bool)) -> Self {
        Rattle {
            slave: Slave { pending_byte, address, general_call },
            buffer: Vec::new(),
            log: vec![0; 2 * LOG_ROOM],
            entries: 0,
            used: 0,
            kinds: Vec::new(),
            lengths: Vec::new(),
        }
    }

    pub fn log(&self) -> impl Iterator<Item = bus::Entry> {
        entries(&self.log, self.entries).map(entry)
    }

    /// The slave's kept byte, address and general call.
    pub fn slave_state(&self) -> (Option<u8>, u16, bool) {
        (self.slave.pending_byte, self.slave.address, self.slave.general_call)
    }

    pub fn run(&mut self, call: &Call) -> Answer {
        self.buffer.clear();
        self.buffer.resize(call.read_length(), 0);
        let readings = &call.readings[..];
        match call.kind {
            Kind::Clock { frequency, clock } => {
                let left = master::set_config(frequency, clock, readings, &mut self.log);
                self.left(left, |()| 0)
            }
            Kind::Master { form, address } => self.transfer(form, address, call),
            Kind::Reset { address, general_call } => {
                let left = self.slave.reset(address, general_call, readings, &mut self.log);
                self.left(left, |()| 0)
            }
            Kind::Listen { .. } => {
                let left = self.slave.listen(&mut self.buffer, readings, &mut self.log);
                self.left(left, |command| command.detail())
            }
            Kind::Respond => {
                let left = self.slave.respond_to_read(&call.bytes, readings, &mut self.log);
                self.left(left, |status| status.detail())
            }
            Kind::Fill { fill } => {
                let left = self.slave.respond_till_stop(fill, readings, &mut self.log);
                self.left(left, |()| 0)
            }
            Kind::RespondAndFill { fill } => {
                let left = self.slave.respond_and_fill(&call.bytes, fill, readings, &mut self.log);
                self.left(left, |status| status.detail())
            }
        }
    }

    fn transfer(&mut self, form: u8, address: u16, call: &Call) -> Answer {
        self.list(&call.operations);
        let (write, read, readings, log) =
            (&call.bytes[..], &mut self.buffer[..], &call.readings[..], &mut self.log[..]);
        let left = match form {
            0 => master::blocking_read(address, read, readings, log),
            1 => master::blocking_write(address, write, readings, log),
            2 => master::blocking_write_read(address, write, read, readings, log),
            3 => master::transaction(address, &self.kinds, &self.lengths, write, read, readings, log),
            4 => master::read_async(address, read, readings, log),
            5 => master::write_async(address, write, readings, log),
            6 => master::write_read_async(address, write, read, readings, log),
            7 => master::transaction_async(address, &self.kinds, &self.lengths, write, read, readings, log),
            8 => master::blocking_read_pec(address, read, readings, log),
            9 => master::blocking_write_pec(address, write, readings, log),
            10 => master::blocking_write_read_pec(address, write, read, readings, log),
            11 => master::transaction_pec(address, &self.kinds, &self.lengths, write, read, readings, log),
            12 => master::read_async_pec(address, read, readings, log),
            13 => master::write_async_pec(address, write, readings, log),
            14 => master::write_read_async_pec(address, write, read, readings, log),
            _ => master::transaction_async_pec(address, &self.kinds, &self.lengths, write, read, readings, log),
        };
        self.left(left, |()| 0)
    }

    fn list(&mut self, operations: &[Operation]) {
        self.kinds.clear();
        self.lengths.clear();
        for operation in operations {
            let (kind, count) = match *operation {
                Operation::Read(count) => (0, count),
                Operation::Write(count) => (1, count),
            };
            self.kinds.push(kind);
            self.lengths.push(length(count));
        }
    }

    fn left<T>(&mut self, left: Left<T>, detail: impl FnOnce(T) -> u32) -> Answer {
        (self.entries, self.used) = (left.entries, left.used);
        numbers(left.answer, detail)
    }
}
