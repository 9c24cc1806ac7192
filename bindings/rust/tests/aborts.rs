//! The reasons of an abort, in every form, plain and with a packet error code, whole and by steps; and the causes in its word.
//!
//! As in `expected.rs`, "line N" is the call at that line of `crates/replay/stdin`, with its answer and its log in `stdout`.

#[allow(dead_code)] // the readings that it makes up are for the other tests
mod common;

use celadonsaw::{master, Causes, Entry, Left, Operation, ReadStatus, Refusal, Slave, Transfer};
use common::{logged, stepped};

const BYTES: [u8; 4] = [0x11, 0x12, 0x13, 0x14];
const KINDS: [u8; 3] = [1, 0, 1];
const LENGTHS: [u16; 3] = [2, 2, 2];
const OPERATIONS: [Operation; 3] = [Operation::Write(2), Operation::Read(2), Operation::Write(2)];

/// A log as `replay` prints it.
fn frames(log: &[Entry]) -> String {
    let frame = |entry: &Entry| match *entry {
        Entry::Read(offset, value) => format!("30{offset:02X}{value:08X}"),
        Entry::Write(offset, value) => format!("31{offset:02X}{value:08X}"),
        Entry::Pending => "32".into(),
        Entry::BlockReset => "33".into(),
    };
    log.iter().map(frame).collect::<Vec<_>>().join(" ")
}

/// The readings that a log says were read.
fn readings(frames: &str) -> Vec<u32> {
    let read = frames.split_whitespace().filter(|frame| frame.starts_with("30"));
    read.map(|frame| u32::from_str_radix(&frame[4..], 16).unwrap()).collect()
}

/// A form's whole call.
fn whole(form: u8, read: &mut [u8], words: &[u32], log: &mut [u32]) -> Left<()> {
    let write = &BYTES[..2];
    match form {
        0 => master::blocking_read(0x42, read, words, log),
        1 => master::blocking_write(0x42, write, words, log),
        2 => master::blocking_write_read(0x42, write, read, words, log),
        3 => master::transaction(0x42, &KINDS, &LENGTHS, &BYTES, read, words, log),
        4 => master::read_async(0x42, read, words, log),
        5 => master::write_async(0x42, write, words, log),
        6 => master::write_read_async(0x42, write, read, words, log),
        7 => master::transaction_async(0x42, &KINDS, &LENGTHS, &BYTES, read, words, log),
        8 => master::blocking_read_pec(0x42, read, words, log),
        9 => master::blocking_write_pec(0x42, write, words, log),
        10 => master::blocking_write_read_pec(0x42, write, read, words, log),
        11 => master::transaction_pec(0x42, &KINDS, &LENGTHS, &BYTES, read, words, log),
        12 => master::read_async_pec(0x42, read, words, log),
        13 => master::write_async_pec(0x42, write, words, log),
        14 => master::write_read_async_pec(0x42, write, read, words, log),
        _ => master::transaction_async_pec(0x42, &KINDS, &LENGTHS, &BYTES, read, words, log),
    }
}

/// The same, to go by steps.
fn transfer(form: u8, read: &mut [u8]) -> Transfer<'_> {
    let (queued, write) = (form & 4 != 0, &BYTES[..2]);
    match (form & 8 != 0, form % 4) {
        (false, 0) => Transfer::read(queued, 0x42, read),
        (false, 1) => Transfer::write(queued, 0x42, write),
        (false, 2) => Transfer::write_read(queued, 0x42, write, read),
        (false, _) => Transfer::transaction(queued, 0x42, &OPERATIONS, &BYTES, read),
        (true, 0) => Transfer::read_pec(queued, 0x42, read),
        (true, 1) => Transfer::write_pec(queued, 0x42, write),
        (true, 2) => Transfer::write_read_pec(queued, 0x42, write, read),
        (true, _) => Transfer::transaction_pec(queued, 0x42, &OPERATIONS, &BYTES, read),
    }
}

/// Both, over the readings of a log, leave that log and that answer, and no byte was read.
fn check(form: u8, answer: Refusal, expected: &str) {
    let words = readings(expected);
    let mut buffer = [0xEE; 2];
    let call = logged(|log| whole(form, &mut buffer, &words, log));
    assert_eq!((call.0, frames(&call.1), call.2), (Err(answer), expected.to_string(), words.len()), "form {form}");
    assert_eq!(call, stepped(transfer(form, &mut buffer), &words), "form {form}");
    assert_eq!(buffer, [0xEE; 2], "form {form}");
}

const SETUP: &str = "316C00000000 310400000042 316C00000001";

#[test]
fn data_not_acknowledged() {
    // Lines 27287, 27315, 27347, 27383; with a code 27591, 27619, 27651, 27687: the abort comes before the code is reached.
    let read = format!("{SETUP} 307400000000 311000000500 307800000000 308000000008 305400000000");
    let write = format!("{SETUP} 311000000011 303400000210 308000000008 305400000000 303400000210 306000000000");
    for coded in [0, 8] {
        check(coded, Refusal::DataNotAcknowledged(8), &read);
        for form in 1..4 {
            check(coded + form, Refusal::DataNotAcknowledged(8), &write);
        }
    }
    // Lines 27423, 27463, 27491, 27539; with a code 27727, 27767, 27795, 27843.
    let ended = "307800000000 308000000008 305400000000 308000000000 303400000210 306000000000";
    let sent = "307400000000 311000000011 311000000012 307400000000";
    for (form, words) in [
        (4, format!("307400000000 311000000500 311000000300 {ended}")),
        (5, "307400000000 311000000011 311000000212 308000000008 305400000000 306000000000".into()),
        (6, format!("{sent} 311000000500 311000000300 {ended}")),
        (7, format!("{sent} 311000000100 311000000100 {ended}")),
        (12, format!("307400000000 311000000500 311000000100 311000000300 {ended}")),
        (13, "307400000000 311000000011 311000000012 31100000029C 308000000008 305400000000 306000000000".into()),
        (14, format!("{sent} 311000000500 311000000100 311000000300 {ended}")),
        (15, format!("{sent} 311000000100 311000000100 {ended}")),
    ] {
        check(form, Refusal::DataNotAcknowledged(8), &format!("{SETUP} {words}"));
    }
}

#[test]
fn order_of_the_reasons() {
    // Lines 27470, 27477 and 27484: bits 0 to 2 come before bit 3, and bit 12 after it. Line 3233: neither.
    for (word, reason) in [
        (0x1008, Refusal::DataNotAcknowledged(0x1008)),
        (0x0009, Refusal::NoAcknowledge),
        (0x1000, Refusal::ArbitrationLoss),
    ] {
        let rest = format!("307400000000 311000000011 311000000212 3080{word:08X} 305400000000 306000000000");
        check(5, reason, &format!("{SETUP} {rest}"));
    }
    let rest = "311000000011 303400000210 308000000010 305400000000 303400000210 306000000000";
    check(1, Refusal::OtherAbort(0x10), &format!("{SETUP} {rest}"));
    assert_eq!(Refusal::DataNotAcknowledged(0x1008).number_and_detail(), (23, 0x1008));
}

#[test]
fn the_first_of_two_words() {
    // Line 28517: 8 ends the transfer, and 1 is read while STOP is waited for.
    let words = [0, 8, 0, 1, 0, 0, 0, 0, 0, 0, 0, 0x200, 0];
    let bytes: Vec<u8> = (0x11..0x22).collect();
    let (answer, log, used) = logged(|log| master::write_async(0x42, &bytes, &words, log));
    assert_eq!((answer, log.len(), used), (Err(Refusal::DataNotAcknowledged(8)), 36, 13));
    assert_eq!((answer, log, used), stepped(Transfer::write(true, 0x42, &bytes), &words));
}

#[test]
fn an_abort_before_a_wrong_code() {
    // Line 28391.
    let words = [0, 0x10, 0, 0xA1, 0xA2, 8, 0, 0];
    let (mut whole, mut parts) = ([0xEE], [0xEE]);
    let (answer, log, used) = logged(|log| master::read_async_pec(0x42, &mut whole, &words, log));
    assert_eq!((answer, log.len(), used), (Err(Refusal::DataNotAcknowledged(8)), 13, 8));
    assert_eq!((answer, log, used), stepped(Transfer::read_pec(true, 0x42, &mut parts), &words));
    assert_eq!((whole, parts), ([0xA1], [0xA1]));
}

#[test]
fn the_slave_has_no_such_reason() {
    // Lines 28929 and 29043.
    let mut slave = Slave { pending_byte: None, address: 0x29, general_call: true };
    let (answer, log, used) = logged(|log| slave.respond_to_read(&BYTES[..2], &[0, 0, 0, 0x40, 8, 0], log));
    assert_eq!((answer, log.len(), used), (Err(Refusal::OtherAbort(8)), 10, 6));
    let words = [0, 0, 0, 0x40, 0x0080_0008, 0, 0];
    let (answer, log, used) = logged(|log| slave.respond_to_read(&BYTES[..2], &words, log));
    assert_eq!((answer, log.len(), used), (Ok(ReadStatus::LeftoverBytes(1)), 11, 7));
    assert_eq!(slave, Slave { pending_byte: None, address: 0x29, general_call: true });
}

#[test]
fn causes_of_a_word() {
    for word in [0, 0x0080_0000, 0x2_0000, 0xFFFE_0000] {
        assert_eq!(master::causes(word), None, "word {word:#X}");
    }
    for (word, count, lowest) in
        [(1, 1, 0), (0x8, 1, 3), (0x1008, 2, 3), (0x1_FFFF, 17, 0), (0x1_0000, 1, 16), (0xFFFF_FFFF, 17, 0)]
    {
        assert_eq!(master::causes(word), Some(Causes { count, lowest }), "word {word:#X}");
    }
}
