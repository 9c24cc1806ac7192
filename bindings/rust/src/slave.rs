//! The slave's calls, to which its state is lent.
use crate::{raw, Command, Left, ReadStatus};

/// What lasts from call to call.
#[derive(Clone, Copy, PartialEq, Eq, Debug, Default)]
pub struct Slave {
    pub pending_byte: Option<u8>,
    pub address: u16,
    pub general_call: bool,
}

impl Slave {
    fn numbers(&self) -> raw::Slave {
        raw::Slave {
            has_pending: self.pending_byte.is_some(),
            pending_byte: self.pending_byte.unwrap_or(0),
            address: self.address,
            general_call: self.general_call,
        }
    }

    fn left<T>(&mut self, left: raw::SlaveReport, accepted: impl FnOnce(u32) -> T) -> Left<T> {
        *self = Slave {
            pending_byte: left.state.has_pending.then_some(left.state.pending_byte),
            address: left.state.address,
            general_call: left.state.general_call,
        };
        Left::new(left.report, accepted)
    }

    /// Resets the block and sets address and general call; a pending byte stays.
    pub fn reset(&mut self, address: u16, general_call: bool, readings: &[u32], log: &mut [u32]) -> Left<()> {
        let left = raw::slave_reset(self.numbers(), address, general_call, readings, log);
        self.left(left, |_| ())
    }

    pub fn listen(&mut self, buffer: &mut [u8], readings: &[u32], log: &mut [u32]) -> Left<Command> {
        let left = raw::slave_listen(self.numbers(), buffer, readings, log);
        self.left(left, Command::from_detail)
    }

    pub fn respond_to_read(&mut self, bytes: &[u8], readings: &[u32], log: &mut [u32]) -> Left<ReadStatus> {
        let left = raw::slave_respond_to_read(self.numbers(), bytes, readings, log);
        self.left(left, ReadStatus::from_detail)
    }

    pub fn respond_till_stop(&mut self, fill: u8, readings: &[u32], log: &mut [u32]) -> Left<()> {
        let left = raw::slave_respond_till_stop(self.numbers(), fill, readings, log);
        self.left(left, |_| ())
    }

    pub fn respond_and_fill(&mut self, bytes: &[u8], fill: u8, readings: &[u32], log: &mut [u32]) -> Left<ReadStatus> {
        let left = raw::slave_respond_and_fill(self.numbers(), bytes, fill, readings, log);
        self.left(left, ReadStatus::from_detail)
    }
}
