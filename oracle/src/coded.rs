//! Transfers with a packet error code, by the original drivers: their call on the longer operations. The code is a CRC-8
//! of this file's own, bit by bit.

use crate::bus::Entry;
use crate::call::{Call, Kind, Operation};
use crate::offsets::DATA_CMD;

/// Bit 3 of a master's form.
const CODED: u8 = 8;

/// What the original drivers are asked for in the place of a coded call.
pub enum Instead {
    /// The plain call: it has no operations, or its first empty one is a read.
    Plain(Call),
    /// A transaction with an empty read in the place of the first empty write; its 7 is told as 8.
    EmptyWrite(Call),
    /// Its last operation one byte longer, the code that is sent being 0.
    Longer(Call),
}

pub fn instead(call: &Call) -> Option<Instead> {
    let Kind::Master { form, address } = call.kind else { return None };
    if form & CODED == 0 {
        return None;
    }
    let mut plain = call.clone();
    plain.kind = Kind::Master { form: form - CODED, address };
    let empty = |operation: &Operation| matches!(operation, Operation::Read(0) | Operation::Write(0));
    if let Some(first) = call.operations.iter().position(empty) {
        if call.operations[first] == Operation::Read(0) {
            return Some(Instead::Plain(plain));
        }
        plain.kind = Kind::Master { form: form - CODED | 3, address };
        plain.operations[first] = Operation::Read(0);
        return Some(Instead::EmptyWrite(plain));
    }
    match plain.operations.last_mut() {
        None => return Some(Instead::Plain(plain)),
        Some(Operation::Read(length)) => *length += 1,
        Some(Operation::Write(length)) => {
            *length += 1;
            plain.bytes.push(0);
        }
    }
    Some(Instead::Longer(plain))
}

fn crc8(message: &[u8]) -> u8 {
    let mut register = 0u8;
    for byte in message {
        for bit in (0..8).rev() {
            let out = register >> 7 ^ byte >> bit & 1;
            register = register << 1 ^ if out == 1 { 0x07 } else { 0 };
        }
    }
    register
}

/// The code of a call: over its address bytes, what it writes and what it has read.
pub fn code<'a>(call: &'a Call, mut read: &'a [u8]) -> u8 {
    let Kind::Master { address, .. } = call.kind else { unreachable!("only a master's call has a code") };
    let mut message = Vec::new();
    let mut written = &call.bytes[..];
    let mut reading = None;
    for operation in &call.operations {
        let (is_read, length, bytes) = match *operation {
            Operation::Read(length) => (true, length, &mut read),
            Operation::Write(length) => (false, length, &mut written),
        };
        if reading != Some(is_read) {
            message.push((address as u8) << 1 | is_read as u8);
        }
        reading = Some(is_read);
        let (part, rest) = bytes.split_at(length);
        *bytes = rest;
        message.extend_from_slice(part);
    }
    crc8(&message)
}

/// Puts the right code into the last byte that the call reads.
pub fn correct(call: &mut Call, log: &[Entry], buffer: &[u8]) {
    let right = code(call, buffer);
    let last = log.iter().rposition(|entry| matches!(entry, Entry::Read(DATA_CMD, _))).expect("a byte was read");
    let before = log[..last].iter().filter(|entry| matches!(entry, Entry::Read(..))).count();
    call.readings[before] = call.readings[before] & !0xFF | right as u32;
}

#[cfg(test)]
mod tests {
    #[test]
    fn check_value() {
        assert_eq!(super::crc8(b"123456789"), 0xF4);
    }
}
