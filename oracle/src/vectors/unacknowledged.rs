//! Data bytes that are not acknowledged, bit 3 of an abort word: the master's reason of their own, beside those before and after
//! it, and the slave's, which has none.

use super::master::{NAMES, operations};
use super::{Vectors, master, slave};
use crate::call::Operation::{Read, Write};
use crate::offsets::*;

const TX_EMPTY: u32 = 0x10;
const STOP_DET: u32 = 0x200;

/// Bit 3 alone, with bit 12, with bit 0; and bit 12 alone.
const WORDS: [u32; 4] = [8, 0x1008, 9, 0x1000];

fn name(form: u8) -> String {
    let code = if form < 8 { "" } else { " with a code" };
    format!("{}{code}", NAMES[usize::from(form % 8)])
}

pub fn add(vectors: &mut Vectors) {
    forms(vectors);
    words(vectors);
    later(vectors);
    second_words(vectors);
    readings_used_up(vectors);
    slave::add_unacknowledged(vectors);
}

/// Each form, plain and with a code: at the first read of the abort source.
fn forms(vectors: &mut Vectors) {
    for form in 0..16u8 {
        for word in WORDS {
            let rules = [(TX_ABRT_SOURCE, vec![word, 0]), (RXFLR, vec![0, 16])];
            let call = master(form, 0x42, &operations(form, 2, 2));
            vectors.add(&format!("{}: reason of abort word {word:#X}", name(form)), call, &rules);
        }
    }
}

/// Bit 3 below a flush count, and among all the bits that decide nothing or come after it.
fn words(vectors: &mut Vectors) {
    for word in [0x0080_0008, 0xFF80_0008, 0xFFFF_FFF8, 0xFFFF_FFFC, 0xFFFF_FFF0, 0xFFFF_EFF0, 0x0001_0008, 0x18] {
        for form in [1, 4, 9, 12] {
            let rules = [(TX_ABRT_SOURCE, vec![word, 0]), (RXFLR, vec![0, 16])];
            let call = master(form, 0x42, &operations(form, 1, 1));
            vectors.add(&format!("{}: reason of abort word {word:#X}", name(form)), call, &rules);
        }
    }
}

/// After bytes that were read and stay; in the read that follows a write; and on a code that is wrong as well.
fn later(vectors: &mut Vectors) {
    for form in [0, 2, 3, 4, 6, 7, 8, 10, 11, 12, 14, 15] {
        let rules = [(TX_ABRT_SOURCE, vec![0, 0, 8, 0]), (RXFLR, vec![1, 0, 0, 0, 16])];
        let call = master(form, 0x42, &operations(form, 3, 3));
        vectors.add(&format!("{}: data not acknowledged later on, bytes read stay", name(form)), call, &rules);
    }
    for form in [2, 10] {
        let rules = [(TX_ABRT_SOURCE, vec![0, 8]), (RXFLR, vec![0])];
        let call = master(form, 0x42, &[Write(1), Read(1)]);
        vectors.add(&format!("{}: data not acknowledged in the read", name(form)), call, &rules);
    }
    for form in [12, 14] {
        let rules = [(TX_ABRT_SOURCE, vec![0, 8, 0])];
        let call = master(form, 0x42, &operations(form, 1, 1));
        vectors.add(&format!("{}: data not acknowledged and a wrong code", name(form)), call, &rules);
    }
}

/// An async transfer reads the abort source again while it waits for STOP after an abort: the first word decides.
fn second_words(vectors: &mut Vectors) {
    for form in [4, 5, 12, 13] {
        for (first, second) in [(8, 1), (1, 8), (0x1000, 8), (8, 0x1000), (0x1008, 1), (0x10, 8)] {
            let rules = [(TX_ABRT_SOURCE, vec![first, second, 0]), (RAW_INTR_STAT, vec![0, 0, STOP_DET])];
            let call = master(form, 0x42, &operations(form, 17, 2));
            vectors.add(&format!("{}: abort word {first:#X} and then {second:#X}", name(form)), call, &rules);
        }
    }
    let rules = [(TX_ABRT_SOURCE, vec![0, 8, 1]), (RAW_INTR_STAT, vec![0, STOP_DET])];
    let call = master(5, 0x42, &[Write(1)]);
    vectors.add("async write: data not acknowledged while waiting for STOP", call, &rules);
}

/// An abort that is not answered yet: the readings end before the STOP that follows it.
fn readings_used_up(vectors: &mut Vectors) {
    let rules = [(TX_ABRT_SOURCE, vec![8]), (RAW_INTR_STAT, vec![TX_EMPTY, STOP_DET])];
    let call = master(1, 0x42, &[Write(1)]);
    vectors.add_each_cut("blocking write: data not acknowledged", call, &rules, 5);
    let rules = [(TX_ABRT_SOURCE, vec![8, 0]), (RAW_INTR_STAT, vec![0, STOP_DET])];
    let call = master(13, 0x42, &[Write(17)]);
    vectors.add_each_cut("async write with a code: data not acknowledged", call, &rules, 9);
}
