//! Calls through the static library: answers, logs, buffers and state; and steps against whole calls.

mod common;

use celadonsaw::{master, Access, Command, Entry, Operation, ReadStatus, Refusal, Slave, Transfer};
use common::{logged, readings, stepped};

#[test]
fn clock_of_100_khz() {
    let (answer, log, used) = logged(|log| master::set_config(100_000, 125_000_000, &[1], log));
    assert_eq!((answer, used), (Ok(()), 1));
    let expected = [
        Entry::Write(0x6C, 0),
        Entry::Write(0x1C, 0x1F4),
        Entry::Write(0x20, 0x2EE),
        Entry::Write(0xA0, 0x2E),
        Entry::Read(0x7C, 1),
        Entry::Write(0x7C, 0x26),
        Entry::Write(0x6C, 1),
    ];
    assert_eq!(log, expected);
}

#[test]
fn refusals() {
    assert_eq!(logged(|log| master::set_config(0, 1, &[], log)).0, Err(Refusal::FrequencyZero));
    let left = logged(|log| master::blocking_read(0x80, &mut [0], &[], log));
    assert_eq!(left, (Err(Refusal::AddressOutOfRange(0x80)), vec![], 0));
    assert_eq!(logged(|log| master::write_async(1, &[0; 4097], &[], log)).0, Err(Refusal::OverLimits));
    assert_eq!(logged(|log| master::blocking_write(1, &[5], &[], log)).0, Err(Refusal::OutOfReadings));
    assert_eq!(master::blocking_write(1, &[5], &[], &mut []).answer, Err(Refusal::LogFull));
}

#[test]
fn slave_keeps_its_byte() {
    let mut slave = Slave::default();
    let (answer, _, used) = logged(|log| slave.reset(0x55, true, &[0x65; 12], log));
    assert_eq!((answer, slave), (Ok(()), Slave { pending_byte: None, address: 0x55, general_call: true }));
    assert!(used > 0);
    slave.pending_byte = Some(7);
    assert_eq!(logged(|log| slave.listen(&mut [], &[], log)).0, Err(Refusal::NoPlaceForPending));
    assert_eq!(slave.pending_byte, Some(7));
    assert_eq!(logged(|log| slave.respond_to_read(&[], &[], log)).0, Err(Refusal::InvalidResponseBufferLength));
    assert_eq!(Command::Write(3).detail(), 0x40003);
    assert_eq!(ReadStatus::LeftoverBytes(2).detail(), 0x30002);
}

#[test]
fn steps_are_the_whole_call() {
    let write = [1, 2, 3, 4, 5, 6, 7, 8, 9, 10, 11, 12, 13, 14, 15, 16, 17, 18];
    for seed in 0..4000 {
        let readings = readings(seed);
        let (mut whole, mut parts) = ([0; 20], [0; 20]);
        let size = 1 + seed as usize % 18;
        let queued = seed % 2 == 0;
        let read_by = if queued { master::read_async } else { master::blocking_read };
        let write_by = if queued { master::write_async } else { master::blocking_write };
        let both_by = if queued { master::write_read_async } else { master::blocking_write_read };
        let many_by = if queued { master::transaction_async } else { master::transaction };
        let call = logged(|log| read_by(0x11, &mut whole[..size], &readings, log));
        assert_eq!(call, stepped(Transfer::read(queued, 0x11, &mut parts[..size]), &readings));
        let call = logged(|log| write_by(0x22, &write[..size], &readings, log));
        assert_eq!(call, stepped(Transfer::write(queued, 0x22, &write[..size]), &readings));
        let call = logged(|log| both_by(0x33, &write[..size], &mut whole[..3], &readings, log));
        assert_eq!(call, stepped(Transfer::write_read(queued, 0x33, &write[..size], &mut parts[..3]), &readings));
        let call = logged(|log| many_by(0x44, &[0, 1, 0], &[2, 4, 1], &write[..4], &mut whole[..3], &readings, log));
        let operations = [Operation::Read(2), Operation::Write(4), Operation::Read(1)];
        let transfer = Transfer::transaction(queued, 0x44, &operations, &write[..4], &mut parts[..3]);
        assert_eq!(call, stepped(transfer, &readings));
        assert_eq!(whole, parts);
    }
}

#[test]
fn steps_refuse_what_calls_refuse() {
    let none = Transfer::transaction(false, 1, &[Operation::Read(1); 65], &[], &mut []).next_access();
    assert_eq!(none, Access::Ended(Err(Refusal::OverLimits)));
    let mut large = vec![0; 70_000];
    assert_eq!(Transfer::read(true, 1, &mut large).next_access(), Access::Ended(Err(Refusal::OverLimits)));
    assert_eq!(Transfer::write(true, 0x80, &[1]).next_access(), Access::Ended(Err(Refusal::AddressOutOfRange(0x80))));
    let mut ended = Transfer::write(true, 0x80, &[1]);
    ended.advance(5);
    assert_eq!(ended.next_access(), Access::Ended(Err(Refusal::AddressOutOfRange(0x80))));
    assert_eq!(ended.step(5), Access::Ended(Err(Refusal::AddressOutOfRange(0x80))));
}
