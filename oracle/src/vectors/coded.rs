//! The eight master forms with a packet error code.

use super::master::{NAMES, operations};
use super::{Vectors, master};
use crate::call::Call;
use crate::call::Operation::{self, Read, Write};
use crate::offsets::*;

const STOP_DET: u32 = 0x200;

fn name(form: u8) -> String {
    format!("{} with a code", NAMES[form as usize - 8])
}

pub fn add(vectors: &mut Vectors) {
    forms(vectors);
    stored(vectors);
    refusals(vectors);
    transactions(vectors);
    limits(vectors);
}

fn forms(vectors: &mut Vectors) {
    for form in 8..16u8 {
        for length in [0, 1, 15, 16, 17, 32] {
            let call = master(form, 0x42, &operations(form, length, length));
            vectors.add(&format!("{}: length {length}", name(form)), call.clone(), &[]);
            vectors.add_right(&format!("{}: length {length}, the code is right", name(form)), call, &[]);
        }
        let call = master(form, 0x42, &operations(form, 1, 2));
        let needed = [11, 6, 13, 14, 9, 6, 12, 15][form as usize - 8];
        vectors.add_each_cut(&name(form), call, &[], needed);
    }
}

/// A read that issues no word because its FIFO is full, then a write whose code covers the byte read; and a right code.
fn stored(vectors: &mut Vectors) {
    let mut call = Call { bytes: vec![0xCE], ..master(15, 0x50, &[Read(1), Write(1)]) };
    call.readings = vec![0x10, 1, 0, 0x5A, 0, 0, 0x200, 0];
    vectors.add("async transaction with a code: a full FIFO, no word of the read", call, &[]);
    let call = master(12, 0x50, &[Read(1)]);
    let rules = [(TXFLR, vec![0x10, 0]), (RXFLR, vec![2]), (DATA_CMD, vec![0x5A])];
    vectors.add_right("async read with a code: a byte and its code at once", call, &rules);
    let call = Call { bytes: vec![0x01], ..master(9, 0x50, &[Write(1)]) };
    vectors.add("blocking write with a code: 01 to 0x50", call, &[]);
}

fn refusals(vectors: &mut Vectors) {
    for form in 8..16u8 {
        for address in [0, 0x7F, 0x80, 0xFFFF] {
            let call = master(form, address, &operations(form, 1, 1));
            vectors.add(&format!("{}: address {address:#X}", name(form)), call, &[]);
        }
        let call = master(form, 0x80, &operations(form, 0, 0));
        vectors.add(&format!("{}: address before empty operations", name(form)), call, &[]);
        let rules = [(TX_ABRT_SOURCE, vec![0, 0, 1, 0]), (RXFLR, vec![1, 0, 0, 0, 16])];
        let call = master(form, 0x42, &operations(form, 3, 3));
        vectors.add(&format!("{}: abort before the code, bytes read stay", name(form)), call, &rules);
        let rules = [(TX_ABRT_SOURCE, vec![0, 0x1000, 0]), (RAW_INTR_STAT, vec![0x10, STOP_DET, 0x210])];
        let call = master(form, 0x42, &operations(form, 1, 1));
        vectors.add(&format!("{}: abort and a wrong code", name(form)), call, &rules);
    }
    let rules = [(DATA_CMD, vec![0xFFFF_FF5A])];
    vectors.add_right("blocking read with a code: upper bits of the data", master(8, 0x42, &[Read(1)]), &rules);
}

fn transactions(vectors: &mut Vectors) {
    let lists: [(&str, &[Operation]); 12] = [
        ("no operations", &[]),
        ("two reads joined", &[Read(1), Read(2)]),
        ("two writes joined", &[Write(1), Write(2)]),
        ("write, read, write, read", &[Write(2), Read(1), Write(1), Read(3)]),
        ("read, write, read, write", &[Read(2), Write(1), Read(1), Write(3)]),
        ("last operation an empty write", &[Write(1), Write(0)]),
        ("empty write in the middle", &[Write(1), Write(0), Read(1)]),
        ("last operation an empty read", &[Write(1), Read(0)]),
        ("empty read first", &[Read(0), Write(1)]),
        ("empty write first", &[Write(0), Read(1)]),
        ("empty read after an empty write", &[Read(1), Write(0), Read(0)]),
        ("one read of 17", &[Read(17)]),
    ];
    for form in [11, 15] {
        for (list_name, list) in lists {
            vectors.add(&format!("{}: {list_name}", name(form)), master(form, 0x42, list), &[]);
            vectors.add_right(&format!("{}: {list_name}, right", name(form)), master(form, 0x42, list), &[]);
        }
        vectors.add(&format!("{}: no operations, address 0x80", name(form)), master(form, 0x80, &[]), &[]);
    }
}

fn limits(vectors: &mut Vectors) {
    for form in [11, 15] {
        vectors.add(&format!("{}: 64 operations", name(form)), master(form, 1, &[Write(1); 64]), &[]);
        vectors.add(&format!("{}: 65 operations", name(form)), master(form, 1, &[Write(1); 65]), &[]);
    }
    vectors.add_cut("blocking read with a code: 4,096 bytes", master(8, 1, &[Read(4096)]), &[], 1);
    vectors.add("blocking read with a code: 4,097 bytes", master(8, 1, &[Read(4097)]), &[]);
    vectors.add("async write with a code: 4,096 bytes", master(13, 1, &[Write(4096)]), &[]);
    vectors.add("async write with a code: 4,097 bytes", master(13, 1, &[Write(4097)]), &[]);
    // 200 rounds of 16 bytes, one of 4, the code the last, and 235 polls for STOP fill the log.
    let mut status = vec![0; 235];
    status.push(STOP_DET);
    let call = master(12, 0x42, &[Read(3203)]);
    vectors.add("async read with a code: wrong, the log exactly full", call, &[(RAW_INTR_STAT, status)]);
}
