//! Transfers with a packet error code: the CRC-8 itself, right and wrong codes, and steps against whole calls.

mod common;

use celadonsaw::{master, Entry, Operation, Refusal, Transfer};
use common::{logged, readings, stepped};

const DATA_CMD: u8 = 0x10;

#[test]
fn check_value() {
    assert_eq!(master::crc8(0, b"123456789"), 0xF4);
    assert_eq!(master::crc8(master::crc8(0, b"12345"), b"6789"), 0xF4);
    let long: Vec<u8> = (0..5000u32).map(|i| (i * 7 + i / 256) as u8).collect();
    let by_bytes = long.iter().fold(0x33, |crc, byte| master::crc8(crc, &[*byte]));
    assert_eq!(master::crc8(0x33, &long), by_bytes);
}

#[test]
fn a_write_sends_its_code() {
    let readings = [0x10, 0, 0x10, 0, 0x200, 0];
    let (answer, log, _) = logged(|log| master::blocking_write_pec(0x50, &[1], &readings, log));
    let sent: Vec<Entry> = log.into_iter().filter(|entry| matches!(entry, Entry::Write(DATA_CMD, _))).collect();
    assert_eq!((answer, sent), (Ok(()), vec![Entry::Write(DATA_CMD, 0x001), Entry::Write(DATA_CMD, 0x21F)]));
}

#[test]
fn a_read_tests_its_code() {
    for code in 0..=255u8 {
        let readings = [0, 1, 0x5A, 0, 1, code.into()];
        let mut buffer = [0xEE];
        let (answer, ..) = logged(|log| master::blocking_read_pec(0x50, &mut buffer, &readings, log));
        assert_eq!((answer, buffer), (if code == 0x8C { Ok(()) } else { Err(Refusal::WrongPacketErrorCode) }, [0x5A]));
    }
}

#[test]
fn empty_writes_are_refused() {
    let empty = Err(Refusal::InvalidWriteBufferLength);
    assert_eq!(logged(|log| master::write_async_pec(1, &[], &[], log)).0, empty);
    assert_eq!(logged(|log| master::blocking_write_pec(1, &[], &[], log)).0, empty);
}

#[test]
fn no_operations_have_no_code() {
    assert_eq!(
        logged(|log| master::transaction_async_pec(0x100, &[], &[], &[], &mut [], &[], log)),
        (Ok(()), vec![], 0)
    );
}

#[test]
fn steps_are_the_whole_call() {
    let write = [1, 2, 3, 4, 5, 6, 7, 8, 9, 10, 11, 12, 13, 14, 15, 16, 17, 18];
    for seed in 0..4000 {
        let readings = readings(seed);
        let (mut whole, mut parts) = ([0; 20], [0; 20]);
        let size = seed as usize % 19;
        let queued = seed % 2 == 0;
        let read_by = if queued { master::read_async_pec } else { master::blocking_read_pec };
        let write_by = if queued { master::write_async_pec } else { master::blocking_write_pec };
        let both_by = if queued { master::write_read_async_pec } else { master::blocking_write_read_pec };
        let many_by = if queued { master::transaction_async_pec } else { master::transaction_pec };
        let call = logged(|log| read_by(0x11, &mut whole[..size], &readings, log));
        assert_eq!(call, stepped(Transfer::read_pec(queued, 0x11, &mut parts[..size]), &readings));
        let call = logged(|log| write_by(0x22, &write[..size], &readings, log));
        assert_eq!(call, stepped(Transfer::write_pec(queued, 0x22, &write[..size]), &readings));
        let call = logged(|log| both_by(0x33, &write[..size], &mut whole[..3], &readings, log));
        assert_eq!(call, stepped(Transfer::write_read_pec(queued, 0x33, &write[..size], &mut parts[..3]), &readings));
        let call =
            logged(|log| many_by(0x44, &[0, 1, 0, 1], &[2, 3, 1, 1], &write[..4], &mut whole[..3], &readings, log));
        let operations = [Operation::Read(2), Operation::Write(3), Operation::Read(1), Operation::Write(1)];
        let transfer = Transfer::transaction_pec(queued, 0x44, &operations, &write[..4], &mut parts[..3]);
        assert_eq!(call, stepped(transfer, &readings));
        assert_eq!(whole, parts);
    }
}
