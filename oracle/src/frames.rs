//! Frames of calls: gathered line by line, and printed.

use crate::call::{Call, Kind, MOST_READINGS, Operation};
use crate::hex;

/// What a well-formed line asks for.
pub enum Step {
    Gathered,
    Run,
}

/// The call being gathered.
pub struct Session {
    pub call: Call,
    pub open: bool,
}

impl Session {
    pub fn new() -> Self {
        Session { call: Call::new(Kind::Respond), open: false }
    }

    /// Takes one line in; none if it is malformed.
    pub fn line(&mut self, line: &[u8]) -> Option<Step> {
        let (code, rest) = line.split_at_checked(2)?;
        if !self.open {
            let kind = call_frame(code, rest, &mut self.call)?;
            self.call.kind = kind;
            self.open = true;
            return Some(Step::Gathered);
        }
        match code {
            b"20" => self.reading(rest)?,
            b"10" => {
                let before = self.call.bytes.len();
                hex::bytes(rest, &mut self.call.bytes)?;
                self.operation(Operation::Write(self.call.bytes.len() - before))?;
            }
            b"11" => self.operation(Operation::Read(field(rest, 4)? as usize))?,
            b"FF" if rest.is_empty() && self.call.is_complete() => {
                self.open = false;
                return Some(Step::Run);
            }
            _ => return None,
        }
        Some(Step::Gathered)
    }

    fn operation(&mut self, operation: Operation) -> Option<()> {
        if !self.call.readings.is_empty() || !self.call.takes(operation) {
            return None;
        }
        self.call.operations.push(operation);
        Some(())
    }

    fn reading(&mut self, rest: &[u8]) -> Option<()> {
        let value = field(rest, 8)?;
        if !self.call.is_complete() || self.call.readings.len() == MOST_READINGS {
            return None;
        }
        self.call.readings.push(value);
        Some(())
    }
}

/// All of `digits` as one number, if there are exactly so many.
fn field(digits: &[u8], count: usize) -> Option<u32> {
    if digits.len() == count { hex::number(digits) } else { None }
}

fn call_frame(code: &[u8], rest: &[u8], call: &mut Call) -> Option<Kind> {
    call.restart(Kind::Respond);
    match code {
        b"01" if rest.len() == 16 => {
            Some(Kind::Clock { frequency: hex::number(&rest[..8])?, clock: hex::number(&rest[8..])? })
        }
        b"02" if rest.len() == 6 => {
            let form = hex::number(&rest[..2])? as u8;
            let address = hex::number(&rest[2..])? as u16;
            (form < 16).then_some(Kind::Master { form, address })
        }
        b"03" => slave_frame(rest, call),
        _ => None,
    }
}

fn slave_frame(rest: &[u8], call: &mut Call) -> Option<Kind> {
    let (form, rest) = rest.split_at_checked(2)?;
    match form {
        b"00" if rest.len() == 6 => {
            let address = hex::number(&rest[..4])? as u16;
            let general_call = match &rest[4..] {
                b"00" => false,
                b"01" => true,
                _ => return None,
            };
            Some(Kind::Reset { address, general_call })
        }
        b"01" => Some(Kind::Listen { length: field(rest, 4)? as usize }),
        b"02" => {
            hex::bytes(rest, &mut call.bytes)?;
            Some(Kind::Respond)
        }
        b"03" => Some(Kind::Fill { fill: field(rest, 2)? as u8 }),
        b"04" => {
            let (fill, rest) = rest.split_at_checked(2)?;
            hex::bytes(rest, &mut call.bytes)?;
            Some(Kind::RespondAndFill { fill: hex::number(fill)? as u8 })
        }
        _ => None,
    }
}

fn put_fields(code: &[u8], fields: &[(u32, u32)], out: &mut Vec<u8>) {
    out.extend_from_slice(code);
    fields.iter().for_each(|(value, digits)| hex::put(*value, *digits, out));
}

/// Prints a call as its frames.
pub fn put_call(call: &Call, out: &mut Vec<u8>) {
    match call.kind {
        Kind::Clock { frequency, clock } => put_fields(b"01", &[(frequency, 8), (clock, 8)], out),
        Kind::Master { form, address } => put_fields(b"02", &[(form as u32, 2), (address as u32, 4)], out),
        Kind::Reset { address, general_call } => {
            put_fields(b"0300", &[(address as u32, 4), (general_call as u32, 2)], out)
        }
        Kind::Listen { length } => put_fields(b"0301", &[(length as u32, 4)], out),
        Kind::Respond => put_fields(b"0302", &[], out),
        Kind::Fill { fill } => put_fields(b"0303", &[(fill as u32, 2)], out),
        Kind::RespondAndFill { fill } => put_fields(b"0304", &[(fill as u32, 2)], out),
    }
    if call.operations.is_empty() {
        put_bytes(&call.bytes, out);
    }
    out.push(b'\n');
    let mut bytes = &call.bytes[..];
    for operation in &call.operations {
        match *operation {
            Operation::Write(length) => {
                let (part, rest) = bytes.split_at(length);
                bytes = rest;
                out.extend_from_slice(b"10");
                put_bytes(part, out);
            }
            Operation::Read(length) => put_fields(b"11", &[(length as u32, 4)], out),
        }
        out.push(b'\n');
    }
    for reading in &call.readings {
        put_fields(b"20", &[(*reading, 8)], out);
        out.push(b'\n');
    }
    out.extend_from_slice(b"FF\n");
}

fn put_bytes(bytes: &[u8], out: &mut Vec<u8>) {
    bytes.iter().for_each(|byte| hex::put(*byte as u32, 2, out));
}
