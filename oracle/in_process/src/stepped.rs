//! Master transfers of the proved driver, each access performed on the oracle's stand-in.

use celadonsaw::{Access, Operation, Transfer};
use oracle::bus::{self, Ended, Entry};
use oracle::call::{self, Answer, Call};

use crate::numbers;

/// Performs the steps on the stand-in, as a firmware would on the registers. None for a call that is no transfer.
pub fn run(call: &Call, buffer: &mut Vec<u8>) -> Option<Answer> {
    let call::Kind::Master { form, address } = call.kind else { return None };
    buffer.clear();
    buffer.resize(call.read_length(), 0);
    let operations: Vec<Operation> = call
        .operations
        .iter()
        .map(|operation| match *operation {
            call::Operation::Read(count) => Operation::Read(count.try_into().unwrap_or(u16::MAX)),
            call::Operation::Write(count) => Operation::Write(count.try_into().unwrap_or(u16::MAX)),
        })
        .collect();
    let (queued, bytes) = (form & 4 != 0, &call.bytes[..]);
    let transfer = match (form & 8 != 0, form % 4) {
        (false, 0) => Transfer::read(queued, address, buffer),
        (false, 1) => Transfer::write(queued, address, bytes),
        (false, 2) => Transfer::write_read(queued, address, bytes, buffer),
        (false, _) => Transfer::transaction(queued, address, &operations, bytes, buffer),
        (true, 0) => Transfer::read_pec(queued, address, buffer),
        (true, 1) => Transfer::write_pec(queued, address, bytes),
        (true, 2) => Transfer::write_read_pec(queued, address, bytes, buffer),
        (true, _) => Transfer::transaction_pec(queued, address, &operations, bytes, buffer),
    };
    let answer = bus::run(&call.readings, None, || to_end(transfer));
    Some(answer.unwrap_or_else(|ended| match ended {
        Ended::ReadingsUsedUp => Answer::refused(18),
        Ended::LogFull => Answer::refused(19),
        Ended::LevelTooHigh(level) => Answer::with(12, level),
    }))
}

fn to_end(mut transfer: Transfer) -> Answer {
    let mut access = transfer.next_access();
    loop {
        let mut reading = 0;
        match access {
            Access::Read(offset) => reading = bus::read(offset),
            Access::Write(offset, word) => bus::write(offset, word),
            Access::Pending => bus::mark(Entry::Pending),
            Access::Ended(answer) => return numbers(answer, |()| 0),
        }
        access = transfer.step(reading);
    }
}
