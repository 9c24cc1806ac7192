//! The replay program: frames in, answer frames out.

use std::io::{self, BufRead, Write};

use crate::bus::{self, Entry};
use crate::call::{Answer, Call};
use crate::drivers::Drivers;
use crate::frames::{Session, Step};
use crate::hex;

const FLUSH_AT: usize = 1 << 16;

fn put_answer(answer: Answer, out: &mut Vec<u8>) {
    out.extend_from_slice(b"35");
    hex::put(answer.number as u32, 2, out);
    hex::put(answer.detail, 8, out);
    out.push(b'\n');
}

fn put_log(log: &[Entry], out: &mut Vec<u8>) {
    let access = |code: &[u8], offset: u8, value: u32, out: &mut Vec<u8>| {
        out.extend_from_slice(code);
        hex::put(offset as u32, 2, out);
        hex::put(value, 8, out);
    };
    for entry in log {
        match *entry {
            Entry::Read(offset, value) => access(b"30", offset, value, out),
            Entry::Write(offset, value) => access(b"31", offset, value, out),
            Entry::Pending => out.extend_from_slice(b"32"),
            Entry::BlockReset => out.extend_from_slice(b"33"),
        }
        out.push(b'\n');
    }
}

fn run_call(drivers: &mut Drivers, call: &Call, out: &mut Vec<u8>) {
    let answer = drivers.run(call, None);
    bus::with_record(|log, _| put_log(log, out));
    if call.has_buffer() && answer.number != 20 {
        out.extend_from_slice(b"34");
        drivers.buffer.iter().for_each(|byte| hex::put(*byte as u32, 2, out));
        out.push(b'\n');
    }
    put_answer(answer, out);
}

/// Replays the frames of `input` from a fresh slave, writing the answers to `output`.
pub fn replay(mut input: impl BufRead, output: &mut impl Write) -> io::Result<()> {
    let mut drivers = Drivers::new();
    let mut session = Session::new();
    let mut out = Vec::with_capacity(2 * FLUSH_AT);
    let mut line = Vec::new();
    let mut lines = 0u32;
    let malformed_at = loop {
        line.clear();
        if input.read_until(b'\n', &mut line)? == 0 {
            break session.open.then_some(lines.saturating_add(1));
        }
        lines = lines.saturating_add(1);
        match session.line(line.strip_suffix(b"\n").unwrap_or(&line)) {
            Some(Step::Gathered) => {}
            Some(Step::Run) => run_call(&mut drivers, &session.call, &mut out),
            None => break Some(lines),
        }
        if out.len() >= FLUSH_AT {
            output.write_all(&out)?;
            out.clear();
        }
    };
    if let Some(line) = malformed_at {
        put_answer(Answer::with(21, line), &mut out);
    }
    output.write_all(&out)?;
    output.flush()
}
