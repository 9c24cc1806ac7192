//! The eight master forms.

use super::{Vectors, master};
use crate::call::Operation::{self, Read, Write};
use crate::offsets::*;

const TX_EMPTY: u32 = 0x10;
const STOP_DET: u32 = 0x200;
const BOTH: u32 = TX_EMPTY | STOP_DET;
pub const NAMES: [&str; 8] = [
    "blocking read",
    "blocking write",
    "blocking write-read",
    "blocking transaction",
    "async read",
    "async write",
    "async write-read",
    "async transaction",
];

/// A form's operations, of the lengths given.
pub fn operations(form: u8, written: usize, read: usize) -> Vec<Operation> {
    match form % 4 {
        0 => vec![Read(read)],
        1 => vec![Write(written)],
        2 => vec![Write(written), Read(read)],
        _ => vec![Write(written), Read(read), Write(written)],
    }
}

pub fn add(vectors: &mut Vectors) {
    forms(vectors);
    addresses(vectors);
    aborts(vectors);
    levels(vectors);
    blocking_corners(vectors);
    async_read_corners(vectors);
    async_write_corners(vectors);
    stop_corners(vectors);
    transactions(vectors);
    limits(vectors);
    full_log(vectors);
}

fn forms(vectors: &mut Vectors) {
    for form in 0..8u8 {
        let name = NAMES[form as usize];
        for length in [0, 1, 15, 16, 17, 32] {
            let call = master(form, 0x42, &operations(form, length, length));
            vectors.add(&format!("{name}: length {length}"), call, &[]);
        }
        let call = master(form, 0x42, &operations(form, 1, 2));
        let needed = [8, 4, 10, 12, 8, 5, 11, 14][form as usize];
        vectors.add_each_cut(name, call, &[], needed);
    }
}

fn addresses(vectors: &mut Vectors) {
    for form in 0..8u8 {
        for address in [0, 0x7F, 0x80, 0xFF, 0x100, 0x3FF, 0xFFFF] {
            let call = master(form, address, &operations(form, 1, 1));
            vectors.add(&format!("{}: address {address:#X}", NAMES[form as usize]), call, &[]);
        }
        let call = master(form, 0x80, &operations(form, 0, 0));
        vectors.add(&format!("{}: address before empty operations", NAMES[form as usize]), call, &[]);
    }
}

fn aborts(vectors: &mut Vectors) {
    for bit in 0..32 {
        let rules = [(TX_ABRT_SOURCE, vec![1 << bit, 0])];
        vectors.add(&format!("blocking write: abort bit {bit}"), master(1, 0x42, &[Write(2)]), &rules);
        vectors.add(&format!("async read: abort bit {bit}"), master(4, 0x42, &[Read(2)]), &rules);
    }
    for word in [0x1001, 0x1008, 0x0009, 0x1004, 0x0F80_0000, 0x0080_1000, 0xFFFF_FFFF] {
        for form in [0, 1, 4, 5] {
            let rules = [(TX_ABRT_SOURCE, vec![word, 0]), (RXFLR, vec![0, 16])];
            let call = master(form, 0x42, &operations(form, 2, 2));
            vectors.add(&format!("{}: abort word {word:#X}", NAMES[form as usize]), call, &rules);
        }
    }
    for form in 0..8u8 {
        let rules = [(TX_ABRT_SOURCE, vec![0, 0, 1, 0]), (RXFLR, vec![1, 0, 0, 0, 16])];
        let call = master(form, 0x42, &operations(form, 3, 3));
        vectors.add(&format!("{}: abort later on, bytes read stay", NAMES[form as usize]), call, &rules);
    }
}

fn levels(vectors: &mut Vectors) {
    for form in [0, 2, 3, 4, 5, 6, 7] {
        for level in [16, 17, 31, 0xFFFF_FFE0, 0xFFFF_FFF1] {
            let rules = [(TXFLR, vec![level, 0])];
            let call = master(form, 0x42, &operations(form, 1, 2));
            vectors.add(&format!("{}: TXFLR {level:#X} first", NAMES[form as usize]), call, &rules);
        }
        let call = master(form, 0x42, &operations(form, 20, 20));
        vectors.add(&format!("{}: TXFLR 18 second", NAMES[form as usize]), call, &[(TXFLR, vec![0, 18])]);
    }
}

fn blocking_corners(vectors: &mut Vectors) {
    let read = |length| master(0, 0x42, &[Read(length)]);
    let write = |length| master(1, 0x42, &[Write(length)]);
    vectors.add("blocking read: full FIFO is waited for", read(2), &[(TXFLR, vec![16, 16, 0, 16, 0])]);
    vectors.add("blocking read: empty RX FIFO polls the abort source", read(2), &[(RXFLR, vec![0, 0, 1, 0, 1])]);
    vectors.add("blocking read: abort leaves STOP_DET", read(2), &[(RXFLR, vec![0]), (TX_ABRT_SOURCE, vec![1])]);
    vectors.add(
        "blocking read: abort not seen while bytes arrive",
        read(2),
        &[(RXFLR, vec![1]), (TX_ABRT_SOURCE, vec![1])],
    );
    vectors.add(
        "blocking read: upper bits of level and data",
        read(1),
        &[(RXFLR, vec![0xFFFF_FFE0, 0xFFFF_FFE1]), (DATA_CMD, vec![0xFFFF_FF5A]), (TXFLR, vec![0xFFFF_FFE0])],
    );
    vectors.add("blocking write: TX_EMPTY late", write(2), &[(RAW_INTR_STAT, vec![0, STOP_DET, TX_EMPTY, BOTH])]);
    vectors.add("blocking write: STOP late", write(1), &[(RAW_INTR_STAT, vec![TX_EMPTY, 0, TX_EMPTY, STOP_DET])]);
    vectors.add(
        "blocking write: abort still waits for STOP",
        write(2),
        &[(RAW_INTR_STAT, vec![TX_EMPTY, 0, 0, STOP_DET]), (TX_ABRT_SOURCE, vec![8])],
    );
    vectors.add("blocking write: abort on the last byte", write(2), &[(TX_ABRT_SOURCE, vec![0, 0x1000])]);
    vectors.add("blocking write-read: empty read after the write", master(2, 0x42, &[Write(1), Read(0)]), &[]);
    let last = crate::call::Call { bytes: vec![0x5A], ..write(1) };
    vectors.add("blocking write: last byte 0x5A", last, &[]);
}

fn async_read_corners(vectors: &mut Vectors) {
    let read = |length| master(4, 0x42, &[Read(length)]);
    vectors.add("async read: rounds of the free places", read(9), &[(TXFLR, vec![12, 15, 0]), (RXFLR, vec![4, 1, 4])]);
    vectors.add("async read: full FIFO gives rounds of 0 words", read(2), &[(TXFLR, vec![16, 16, 0])]);
    vectors.add(
        "async read: round of 0 words, nothing received",
        read(2),
        &[(TXFLR, vec![16, 0]), (RXFLR, vec![0, 2])],
    );
    vectors.add("async read: pending until the round is there", read(3), &[(RXFLR, vec![0, 1, 2, 3])]);
    vectors.add("async read: mask bits stay", read(1), &[(RXFLR, vec![0, 1]), (INTR_MASK, vec![0xFFFF_F000])]);
    vectors.add(
        "async read: more received than the rounds asked for, words left unsent",
        read(20),
        &[(TXFLR, vec![14, 0]), (RXFLR, vec![9, 31])],
    );
    vectors.add("async read: more received than remains", read(2), &[(RXFLR, vec![31])]);
    vectors.add("async read: second round pending", read(17), &[(TXFLR, vec![0, 8, 0, 0]), (RXFLR, vec![16, 0, 1])]);
    vectors.add(
        "async read: RXFLR read before the abort source",
        read(2),
        &[(RXFLR, vec![2]), (TX_ABRT_SOURCE, vec![4, 0])],
    );
    vectors.add("async read: level bad in the second round", read(17), &[(TXFLR, vec![0, 31])]);
}

fn async_write_corners(vectors: &mut Vectors) {
    let write = |length| master(5, 0x42, &[Write(length)]);
    vectors.add("async write: empty, STOP still waited for", write(0), &[(RAW_INTR_STAT, vec![0, 0, STOP_DET])]);
    vectors.add("async write: empty with a full FIFO", write(0), &[(TXFLR, vec![16, 16, 3])]);
    vectors.add(
        "async write: full at first, pending until a place is free",
        write(1),
        &[(TXFLR, vec![16, 16, 16, 15, 15])],
    );
    vectors.add("async write: one place at a time", write(3), &[(TXFLR, vec![15])]);
    vectors.add("async write: 16 bytes end in the round after", write(16), &[]);
    vectors.add("async write: 15 bytes end inside the round", write(15), &[]);
    vectors.add(
        "async write: abort while waiting for a place",
        write(20),
        &[(TXFLR, vec![0, 16, 16]), (TX_ABRT_SOURCE, vec![0, 1, 0])],
    );
    vectors.add("async write: mask bits stay", write(17), &[(TXFLR, vec![0, 16, 0]), (INTR_MASK, vec![0x8000_0F00])]);
    vectors.add("async write-read: empty write", master(6, 0x42, &[Write(0), Read(1)]), &[]);
    vectors.add("async write-read: empty read", master(6, 0x42, &[Write(1), Read(0)]), &[]);
}

fn stop_corners(vectors: &mut Vectors) {
    let write = |length| master(5, 0x42, &[Write(length)]);
    vectors.add(
        "async stop: abort while waiting wins over STOP",
        write(1),
        &[(TX_ABRT_SOURCE, vec![0, 0x1000]), (RAW_INTR_STAT, vec![0, STOP_DET])],
    );
    vectors.add(
        "async stop: a first abort wins, each poll clears again",
        write(17),
        &[(TX_ABRT_SOURCE, vec![8, 1, 0x1000, 0]), (RAW_INTR_STAT, vec![0, 0, STOP_DET])],
    );
    vectors.add("async stop: pending polls", write(1), &[(RAW_INTR_STAT, vec![TX_EMPTY, 0, BOTH])]);
    let rules = [(TX_ABRT_SOURCE, vec![0x10, 2, 0]), (RAW_INTR_STAT, vec![0, STOP_DET])];
    let call = master(7, 0x42, &[Read(1), Write(1)]);
    vectors.add("async stop: an abort waits for STOP though none was asked for", call, &rules);
}

fn transactions(vectors: &mut Vectors) {
    let lists: [(&str, &[Operation]); 9] = [
        ("no operations", &[]),
        ("two reads joined without RESTART", &[Read(1), Read(2)]),
        ("two writes joined", &[Write(1), Write(2)]),
        ("write, read, write, read", &[Write(2), Read(1), Write(1), Read(3)]),
        ("last operation an empty write", &[Write(1), Write(0)]),
        ("empty write in the middle", &[Write(1), Write(0), Read(1)]),
        ("last operation an empty read", &[Write(1), Read(0)]),
        ("empty read first", &[Read(0), Write(1)]),
        ("one read of 17", &[Read(17)]),
    ];
    for form in [3, 7] {
        for (name, list) in lists {
            vectors.add(&format!("{}: {name}", NAMES[form as usize]), master(form, 0x42, list), &[]);
        }
        for address in [0x80, 0xFFFF] {
            let call = master(form, address, &[]);
            vectors.add(&format!("{}: no operations, address {address:#X}", NAMES[form as usize]), call, &[]);
        }
    }
}

fn limits(vectors: &mut Vectors) {
    for form in [3, 7] {
        let name = NAMES[form as usize];
        vectors.add(&format!("{name}: 64 operations"), master(form, 1, &[Write(1); 64]), &[]);
        vectors.add(&format!("{name}: 65 operations"), master(form, 1, &[Write(1); 65]), &[]);
        vectors.add(&format!("{name}: 65 empty operations, bad address"), master(form, 0x80, &[Write(0); 65]), &[]);
        vectors.add(&format!("{name}: reads above 4,096 in total"), master(form, 1, &[Read(2048), Read(2049)]), &[]);
    }
    vectors.add_cut("blocking read: 4,096 bytes", master(0, 1, &[Read(4096)]), &[], 1);
    vectors.add("blocking read: 4,097 bytes", master(0, 1, &[Read(4097)]), &[]);
    vectors.add("async read: 65,535 bytes", master(4, 1, &[Read(0xFFFF)]), &[]);
    vectors.add("async write-read: 4,097 bytes read, bad address", master(6, 0x80, &[Write(1), Read(4097)]), &[]);
}

/// Long writes fill most of the log; polls of 6 and of 5 entries then lead to its end.
fn full_log(vectors: &mut Vectors) {
    let rules = [(RXFLR, vec![16, 0])];
    let at_mark = master(6, 0x42, &[Write(4096), Read(23)]);
    vectors.add("async write-read: log full at a pending mark, bytes read stay", at_mark, &rules);
    let at_read = master(6, 0x42, &[Write(4096), Read(22)]);
    vectors.add("async write-read: log full at a read, readings used up too", at_read, &rules);
    let mut status = vec![0; 665];
    status.push(STOP_DET);
    let exact = master(5, 0x42, &[Write(4095)]);
    vectors.add("async write: accepted with the log exactly full", exact, &[(RAW_INTR_STAT, status)]);
}
