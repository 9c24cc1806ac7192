//! Every call against values that are written down, as in `bindings/c/calls.c` and for the same reason: the proofs go
//! by the names of parameters and fields, a caller by their places. The clock's accepted call is in `calls.rs`.
//!
//! A log is written as `replay` prints it. "Line N" is the call at that line of `crates/replay/stdin`, with the answer
//! of the original Rust in `stdout` (for bit 3 of a master's abort word it is 23); "manual" is an example of
//! `docs/MANUAL.md`, section 7, or of a rate section 11. By its section 1, readings may be left over and bytes not read
//! stay as they are.

use celadonsaw::{
    entries, master, Access, Command, Entry, Left, Operation, Rate, ReadStatus, Refusal, Slave, Transfer,
};
use std::fmt::Debug;

/// A byte that no call has read into a buffer.
const UNREAD: u8 = 0xEE;
const UNWRITTEN: u32 = 0xEEEE_EEEE;

fn frame(entry: Entry) -> String {
    match entry {
        Entry::Read(offset, value) => format!("30{offset:02X}{value:08X}"),
        Entry::Write(offset, value) => format!("31{offset:02X}{value:08X}"),
        Entry::Pending => "32".into(),
        Entry::BlockReset => "33".into(),
    }
}

fn number(digits: &str) -> u32 {
    u32::from_str_radix(digits, 16).unwrap()
}

/// Makes a call with the words that its log says it read, and some left over unless they are to be used up. What it
/// leaves and its log are as expected.
fn check<T: PartialEq + Debug>(
    call: impl FnOnce(&[u32], &mut [u32]) -> Left<T>,
    answer: Result<T, Refusal>,
    (count, used): (usize, usize),
    frames: &str,
) {
    let read = frames.split_whitespace().filter(|frame| frame.starts_with("30"));
    let mut readings: Vec<u32> = read.map(|frame| number(&frame[4..])).collect();
    if answer != Err(Refusal::OutOfReadings) {
        readings.extend([0xBAD; 3]);
    }
    let mut log = [UNWRITTEN; 128];
    assert_eq!(call(&readings, &mut log), Left { answer, entries: count, used });
    let logged: Vec<String> = entries(&log, count).map(frame).collect();
    assert_eq!(logged, frames.split_whitespace().collect::<Vec<_>>());
    assert!(log[2 * count..].iter().all(|word| *word == UNWRITTEN));
}

/// The same of a transfer, whose steps make the accesses of the whole call: by `step`, and by `advance` and
/// `next_access`. The buffer that is lent is as long as the bytes that it is to have then.
fn check_transfer(
    call: impl FnOnce(&mut [u8], &[u32], &mut [u32]) -> Left<()>,
    start: impl for<'a> Fn(&'a mut [u8]) -> Transfer<'a>,
    answer: Result<(), Refusal>,
    counts: (usize, usize),
    frames: &str,
    bytes: &[u8],
) {
    let mut buffer = vec![UNREAD; bytes.len()];
    check(|readings, log| call(&mut buffer, readings, log), answer, counts, frames);
    assert_eq!(buffer, bytes);
    for in_one in [false, true] {
        buffer.fill(UNREAD);
        let mut transfer = start(&mut buffer);
        let mut access = transfer.next_access();
        for frame in frames.split_whitespace() {
            let (expected, reading) = match &frame[..2] {
                "30" => (Access::Read(number(&frame[2..4]) as u8), number(&frame[4..])),
                "31" => (Access::Write(number(&frame[2..4]) as u8, number(&frame[4..])), 0),
                _ => (Access::Pending, 0),
            };
            assert_eq!(access, expected);
            access = if in_one {
                transfer.step(reading)
            } else {
                transfer.advance(reading);
                transfer.next_access()
            };
        }
        assert_eq!(access, Access::Ended(answer));
        assert_eq!(buffer, bytes);
    }
}

/// The same of a slave's call, with the state before and after it.
fn check_slave<T: PartialEq + Debug>(
    mut slave: Slave,
    call: impl FnOnce(&mut Slave, &[u32], &mut [u32]) -> Left<T>,
    after: Slave,
    answer: Result<T, Refusal>,
    counts: (usize, usize),
    frames: &str,
) {
    check(|readings, log| call(&mut slave, readings, log), answer, counts, frames);
    assert_eq!(slave, after);
}

fn slave(pending_byte: Option<u8>, address: u16, general_call: bool) -> Slave {
    Slave { pending_byte, address, general_call }
}

/// Two bytes are written, one is read, one is written and three are read.
const KINDS: [u8; 4] = [1, 0, 1, 0];
const LENGTHS: [u16; 4] = [2, 1, 1, 3];
const OPERATIONS: [Operation; 4] = [Operation::Write(2), Operation::Read(1), Operation::Write(1), Operation::Read(3)];

#[test]
fn refused_clocks() {
    let refused = |frequency, clock, refusal, count, frames| {
        check(|words, log| master::set_config(frequency, clock, words, log), Err(refusal), (count, 0), frames);
    };
    // Lines 58, 76, 56 and 10.
    refused(1_000_001, 125_000_000, Refusal::FrequencyTooHigh, 0, "");
    refused(100_000, 0x5555_5556, Refusal::ClockOutOfRange, 0, "");
    refused(1000, 0x0682_ABF8, Refusal::ClockTooFast, 1, "316C00000000");
    refused(1_000_000, 32_000_000, Refusal::ClockTooSlow, 1, "316C00000000");
}

#[test]
fn rates_of_the_bus() {
    // Manual, examples (p) to (s).
    let rate = |hz, remainder| Ok(Rate { hz, remainder });
    assert_eq!(master::bus_rate(400_000, 125_000_000), rate(399_361, 7));
    assert_eq!(master::bus_rate(1_000_000, 125_000_000), rate(1_000_000, 0));
    assert_eq!(master::bus_rate(1_000_000, 32_499_999), rate(1_015_624, 31));
    assert_eq!(master::bus_rate(1_000_000, 32_000_000), Err(Refusal::ClockTooSlow));
    assert_eq!(master::bus_rate(1145, 125_000_000), rate(1145, 350));
    assert_eq!(master::bus_rate(1144, 125_000_000), Err(Refusal::ClockTooFast));
    assert_eq!(master::bus_rate(1, 109_226), rate(1, 0));
    assert_eq!(master::bus_rate(1_000_001, 125_000_000), Err(Refusal::FrequencyTooHigh));
    assert_eq!(master::bus_rate(0, 125_000_000), Err(Refusal::FrequencyZero));
    assert_eq!(master::bus_rate(100_000, 0x5555_5556), Err(Refusal::ClockOutOfRange));
}

#[test]
fn blocking_transfers() {
    // Line 4105.
    let mut first_of_20 = [UNREAD; 20];
    first_of_20[0] = 0xA1;
    check_transfer(
        |read, words, log| master::blocking_read(0x42, read, words, log),
        |read| Transfer::read(false, 0x42, read),
        Err(Refusal::TxLevelOutOfRange(0x12)),
        (8, 4),
        "316C00000000 310400000042 316C00000001 307400000000 311000000500 307800000010 3010000000A1 307400000012",
        &first_of_20,
    );
    // Line 106.
    check_transfer(
        |read, words, log| master::blocking_read(0x42, read, words, log),
        |read| Transfer::read(false, 0x42, read),
        Err(Refusal::InvalidReadBufferLength),
        (3, 0),
        "316C00000000 310400000042 316C00000001",
        &[],
    );
    // Manual.
    check_transfer(
        |_, words, log| master::blocking_write(0x50, &[0x5A], words, log),
        |_| Transfer::write(false, 0x50, &[0x5A]),
        Err(Refusal::DataNotAcknowledged(8)),
        (9, 5),
        "316C00000000 310400000050 316C00000001 31100000025A 303400000010 308000000008 305400000000 303400000200 \
         306000000000",
        &[],
    );
    // Line 427.
    check_transfer(
        |_, words, log| master::blocking_write(0x42, &[], words, log),
        |_| Transfer::write(false, 0x42, &[]),
        Err(Refusal::InvalidWriteBufferLength),
        (3, 0),
        "316C00000000 310400000042 316C00000001",
        &[],
    );
    // Line 1155.
    check_transfer(
        |read, words, log| master::blocking_write_read(0x42, &[0x11], read, words, log),
        |read| Transfer::write_read(false, 0x42, &[0x11], read),
        Ok(()),
        (14, 8),
        "316C00000000 310400000042 316C00000001 311000000011 303400000210 308000000000 307400000000 311000000500 \
         307800000010 3010000000A1 307400000000 311000000300 307800000010 3010000000A2",
        &[0xA1, 0xA2],
    );
    // Line 5013.
    check_transfer(
        |read, words, log| master::transaction(0x42, &KINDS, &LENGTHS, &[0x11, 0x12, 0x13], read, words, log),
        |read| Transfer::transaction(false, 0x42, &OPERATIONS, &[0x11, 0x12, 0x13], read),
        Ok(()),
        (28, 18),
        "316C00000000 310400000042 316C00000001 311000000011 303400000210 308000000000 311000000012 303400000210 \
         308000000000 307400000000 311000000100 307800000010 3010000000A1 311000000013 303400000210 308000000000 \
         307400000000 311000000100 307800000010 3010000000A2 307400000000 311000000100 307800000010 3010000000A3 \
         307400000000 311000000300 307800000010 3010000000A4",
        &[0xA1, 0xA2, 0xA3, 0xA4],
    );
}

#[test]
fn async_transfers() {
    // Manual.
    check_transfer(
        |read, words, log| master::read_async(0x50, read, words, log),
        |read| Transfer::read(true, 0x50, read),
        Ok(()),
        (19, 11),
        "316C00000000 310400000050 316C00000001 307400000000 311000000500 311000000300 307800000001 308000000000 \
         313800000001 303000000000 313000000044 32 307800000002 308000000000 3010000000A1 3010000000A2 308000000000 \
         303400000200 306000000000",
        &[0xA1, 0xA2],
    );
    // Line 3794.
    check_transfer(
        |_, words, log| master::write_async(0x42, &[0x11, 0x12], words, log),
        |_| Transfer::write(true, 0x42, &[0x11, 0x12]),
        Err(Refusal::DataNotAcknowledged(0x1008)),
        (9, 4),
        "316C00000000 310400000042 316C00000001 307400000000 311000000011 311000000212 308000001008 305400000000 \
         306000000000",
        &[],
    );
    // Line 2458.
    check_transfer(
        |read, words, log| master::write_read_async(0x42, &[0x11], read, words, log),
        |read| Transfer::write_read(true, 0x42, &[0x11], read),
        Ok(()),
        (15, 9),
        "316C00000000 310400000042 316C00000001 307400000000 311000000011 307400000000 311000000500 311000000300 \
         307800000010 308000000000 3010000000A1 3010000000A2 308000000000 303400000210 306000000000",
        &[0xA1, 0xA2],
    );
    // Line 5145.
    check_transfer(
        |read, words, log| master::transaction_async(0x42, &KINDS, &LENGTHS, &[0x11, 0x12, 0x13], read, words, log),
        |read| Transfer::transaction(true, 0x42, &OPERATIONS, &[0x11, 0x12, 0x13], read),
        Ok(()),
        (25, 15),
        "316C00000000 310400000042 316C00000001 307400000000 311000000011 311000000012 307400000000 311000000100 \
         307800000010 308000000000 3010000000A1 307400000000 311000000013 307400000000 311000000100 311000000100 \
         311000000300 307800000010 308000000000 3010000000A2 3010000000A3 3010000000A4 308000000000 303400000210 \
         306000000000",
        &[0xA1, 0xA2, 0xA3, 0xA4],
    );
}

#[test]
fn slave_resets_and_listens() {
    // Lines 13493, 14156, 14167 and 14184: a byte is kept over a reset, and comes first in the next message.
    let kept = Some(0x51);
    check_slave(
        slave(None, 0, false),
        |slave, words, log| slave.reset(0x55, true, words, log),
        slave(None, 0x55, true),
        Ok(()),
        (11, 2),
        "33 316C00000000 310800000055 300000000065 310000000324 319800000001 313C00000000 313800000000 304000000000 \
         316C00000001 313000000000",
    );
    let mut buffer = [UNREAD; 4];
    check_slave(
        slave(None, 0x55, true),
        |slave, words, log| slave.listen(&mut buffer, words, log),
        slave(kept, 0x55, true),
        Ok(Command::Write(1)),
        (9, 7),
        "313800000000 303400000200 307800000002 307000000008 301000000850 307000000008 301000000851 31380000000B \
         306000000000",
    );
    assert_eq!(buffer, [0x50, UNREAD, UNREAD, UNREAD]);
    check_slave(
        slave(kept, 0x55, true),
        |slave, words, log| slave.reset(0x20, false, words, log),
        slave(kept, 0x20, false),
        Ok(()),
        (11, 2),
        "33 316C00000000 310800000020 300000000065 3100000003A4 319800000000 313C00000000 313800000000 304000000000 \
         316C00000001 313000000000",
    );
    check_slave(
        slave(kept, 0x20, false),
        |slave, words, log| slave.listen(&mut buffer, words, log),
        slave(None, 0x20, false),
        Ok(Command::Write(2)),
        (8, 6),
        "313800000000 303400000200 307800000001 307000000008 301000000052 307000000000 31380000000B 306000000000",
    );
    assert_eq!(buffer, [0x51, 0x52, UNREAD, UNREAD]);
    // Lines 13971 and 13525.
    check_slave(
        slave(None, 0x155, true),
        |slave, words, log| slave.listen(&mut buffer[..1], words, log),
        slave(None, 0x155, true),
        Err(Refusal::PartialGeneralCall(1)),
        (6, 4),
        "313800000000 303400000A00 307800000002 307000000008 301000000041 31380000000B",
    );
    assert_eq!(buffer, [0x41, 0x52, UNREAD, UNREAD]);
    check_slave(
        slave(Some(0x77), 0x3FF, false),
        |slave, words, log| slave.reset(0, true, words, log),
        slave(Some(0x77), 0x3FF, false),
        Err(Refusal::SlaveAddressZero),
        (0, 0),
        "",
    );
}

#[test]
fn slave_responds() {
    // Manual, and line 14178. A response leaves the state.
    let (keeps, none) = (slave(Some(0x51), 0x20, false), slave(None, 0x2A, true));
    check_slave(
        none,
        |slave, words, log| slave.respond_to_read(&[0x11, 0x22, 0x33], words, log),
        none,
        Ok(ReadStatus::LeftoverBytes(2)),
        (13, 8),
        "303400000020 305000000000 311000000011 305000000000 311000000022 305000000000 311000000033 3130000000D0 32 \
         303400000040 308001002000 305400000000 304000000000",
    );
    check_slave(
        keeps,
        |slave, words, log| slave.respond_to_read(&[0x11], words, log),
        keeps,
        Ok(ReadStatus::Done),
        (7, 4),
        "303400000000 305000000000 311000000011 3130000000D0 32 303400000080 305800000000",
    );
    // Line 15297, and manual.
    check_slave(
        keeps,
        |slave, words, log| slave.respond_till_stop(0xEE, words, log),
        keeps,
        Err(Refusal::OutOfReadings),
        (5, 3),
        "303400000210 305000000000 3110000000EE 305000000000 3110000000EE",
    );
    check_slave(
        none,
        |slave, words, log| slave.respond_till_stop(0, words, log),
        none,
        Err(Refusal::NoAcknowledge),
        (3, 3),
        "303400000040 308000000001 305400000000",
    );
    // Manual, and line 15140.
    check_slave(
        none,
        |slave, words, log| slave.respond_and_fill(&[0x77], 0xFF, words, log),
        none,
        Err(Refusal::OutOfReadings),
        (9, 5),
        "303400000020 305000000000 311000000077 3130000000D0 32 303400000030 303400000030 305000000000 3110000000FF",
    );
    check_slave(
        keeps,
        |slave, words, log| slave.respond_and_fill(&[0x11, 0x12], 0xEE, words, log),
        keeps,
        Ok(ReadStatus::LeftoverBytes(3)),
        (11, 7),
        "303400000000 305000000000 311000000011 305000000000 311000000012 3130000000D0 32 303400000040 308001800000 \
         305400000000 304000000000",
    );
}
