//! The five slave forms. The kept byte lasts from one call to the next.

use super::{Rule, Vectors, bytes};
use crate::call::{Call, Kind};
use crate::offsets::*;

const TX_EMPTY: u32 = 0x10;
const RD_REQ: u32 = 0x20;
const TX_ABRT: u32 = 0x40;
const RX_DONE: u32 = 0x80;
const STOP: u32 = 0x200;
const GEN_CALL: u32 = 0x800;
const RESTART: u32 = 0x1000;
const FIRST: u32 = 0x800;
const MORE: u32 = 0x8;

pub fn add(vectors: &mut Vectors) {
    resets(vectors);
    commands(vectors);
    lengths(vectors);
    kept_bytes(vectors);
    later_polls(vectors);
    responses(vectors);
    response_aborts(vectors);
    fills(vectors);
}

fn reset(address: u16, general_call: bool) -> Call {
    Call::new(Kind::Reset { address, general_call })
}

fn listen(length: usize) -> Call {
    Call::new(Kind::Listen { length })
}

fn respond(count: usize) -> Call {
    Call { bytes: bytes(count), ..Call::new(Kind::Respond) }
}

fn fill() -> Call {
    Call::new(Kind::Fill { fill: 0xEE })
}

fn respond_and_fill(count: usize) -> Call {
    Call { bytes: bytes(count), ..Call::new(Kind::RespondAndFill { fill: 0xEE }) }
}

/// Status at each poll, the bytes that come in the first poll with any, and none after them.
fn message(status: &[u32], data: &[u32]) -> Vec<Rule> {
    let mut there = vec![MORE; data.len()];
    there.push(0);
    let data = if data.is_empty() { vec![0] } else { data.to_vec() };
    vec![(RAW_INTR_STAT, status.to_vec()), (RXFLR, vec![there.len() as u32 - 1]), (STATUS, there), (DATA_CMD, data)]
}

fn resets(vectors: &mut Vectors) {
    vectors.add("listen before any reset", listen(4), &message(&[STOP], &[0x21]));
    for (address, general_call) in [(0x55, true), (0x55, false), (0x3FF, true), (0x400, false), (0xFFFF, true)] {
        vectors.add(
            &format!("reset: address {address:#X}, general call {general_call}"),
            reset(address, general_call),
            &[],
        );
    }
    for con in [0, 0xFFFF_FFFF, 0x65] {
        vectors.add(&format!("reset: CON {con:#X}"), reset(0x10, false), &[(CON, vec![con])]);
    }
    vectors.add("reset: address 0", reset(0, true), &[]);
    vectors.add_each_cut("reset", reset(0x55, true), &[], 2);
}

fn commands(vectors: &mut Vectors) {
    for data in [&[][..], &[0x31, 0x32]] {
        for status in 0..16 {
            let status = [(1, STOP), (2, GEN_CALL), (4, RD_REQ), (8, RESTART)]
                .iter()
                .map(|(flag, bit)| if status & flag != 0 { *bit } else { 0 })
                .sum::<u32>();
            let name = format!("listen: {} bytes, status {status:#X} then Read", data.len());
            vectors.add(&name, listen(4), &message(&[status, RD_REQ], data));
        }
    }
    vectors.add_each_cut("listen: a Write", listen(4), &message(&[0, STOP], &[0x33]), 9);
    vectors.add_each_cut("listen: a Read", listen(4), &message(&[RD_REQ], &[]), 5);
}

fn lengths(vectors: &mut Vectors) {
    for status in [STOP, STOP | GEN_CALL, GEN_CALL, RD_REQ | RESTART, 0] {
        for length in 0..4 {
            let name = format!("listen: 2 bytes into {length}, status {status:#X}");
            vectors.add(&name, listen(length), &message(&[status, RD_REQ], &[0x41, 0x42]));
        }
    }
    vectors.add(
        "listen: level above 0 with nothing there",
        listen(2),
        &[(RAW_INTR_STAT, vec![STOP, RD_REQ]), (RXFLR, vec![3]), (STATUS, vec![0xFFFF_FFF7])],
    );
    vectors.add(
        "listen: level 0 leaves the FIFO alone",
        listen(2),
        &[(RAW_INTR_STAT, vec![RD_REQ]), (RXFLR, vec![0xFFFF_FFE0]), (STATUS, vec![MORE])],
    );
    vectors.add("listen: 17 bytes of a level of 16", listen(33), &message(&[STOP], &[0x43; 17]));
    vectors.add_cut("listen: 4,096 bytes", listen(4096), &[], 3);
    vectors.add("listen: 4,097 bytes", listen(4097), &[]);
}

fn kept_bytes(vectors: &mut Vectors) {
    let keep = |vectors: &mut Vectors, byte: u32| {
        let name = format!("listen: a marked byte after a stored one is kept ({byte:#X})");
        vectors.add(&name, listen(4), &message(&[STOP], &[0x50 | FIRST, byte | FIRST]));
    };
    keep(vectors, 0x51);
    vectors.add("listen: empty buffer with a kept byte", listen(0), &[]);
    vectors.add("reset keeps the kept byte", reset(0x20, false), &[]);
    vectors.add("a transfer keeps the kept byte", super::master(1, 1, &[crate::call::Operation::Write(1)]), &[]);
    vectors.add("a response keeps the kept byte", respond(1), &[(RAW_INTR_STAT, vec![0, RX_DONE])]);
    vectors.add("listen: the kept byte comes first", listen(4), &message(&[STOP], &[0x52]));
    keep(vectors, 0x53);
    vectors.add("listen: the kept byte with a level of 0", listen(4), &message(&[STOP], &[]));
    keep(vectors, 0x54);
    vectors.add("listen: the kept byte fills the buffer", listen(1), &message(&[STOP], &[0x55]));
    keep(vectors, 0x56);
    vectors.add("listen: the kept byte, then a marked one", listen(4), &message(&[STOP], &[0x57 | FIRST]));
    vectors.add("listen: that marked byte", listen(4), &message(&[STOP | GEN_CALL], &[]));
    vectors.add("listen: a marked byte filling the buffer leaves none", listen(1), &message(&[STOP], &[0x58 | FIRST]));
    vectors.add("listen: empty buffer, no kept byte", listen(0), &message(&[GEN_CALL], &[0x59]));
    keep(vectors, 0x5A);
    vectors.add_cut("listen: the kept byte is taken with RXFLR", listen(4), &message(&[STOP], &[]), 2);
    vectors.add("listen: it is gone after that", listen(4), &message(&[STOP, RD_REQ], &[]));
    keep(vectors, 0x5B);
    vectors.add_cut("listen: the kept byte stays before RXFLR", listen(4), &message(&[STOP], &[]), 1);
    vectors.add("listen: it is there after that", listen(4), &message(&[STOP], &[]));
    vectors.add_cut("listen: kept with the read of DATA_CMD", listen(4), &message(&[0], &[0x5C, 0x5D | FIRST]), 6);
    vectors.add("listen: it was", listen(4), &message(&[STOP], &[]));
}

fn later_polls(vectors: &mut Vectors) {
    vectors.add("listen: a later poll appends the kept byte", listen(4), &message(&[0, STOP], &[0x61, 0x62 | FIRST]));
    vectors.add("listen: that fills the buffer", listen(2), &message(&[0, STOP], &[0x63, 0x64 | FIRST]));
    vectors.add("listen: a stuck STOP is cleared", listen(4), &message(&[STOP, STOP, RD_REQ], &[]));
    vectors.add(
        "listen: bytes of three polls",
        listen(8),
        &[
            (RAW_INTR_STAT, vec![0, 0, 0, STOP]),
            (RXFLR, vec![1, 0, 2]),
            (STATUS, vec![MORE, 0, MORE, MORE, 0]),
            (DATA_CMD, vec![0x65, 0x66, 0x67]),
        ],
    );
    vectors.add("listen: kept byte of the last poll", listen(4), &message(&[STOP], &[0x68, 0x69 | FIRST]));
    vectors.add("listen: taken again", listen(4), &message(&[STOP], &[]));
}

fn responses(vectors: &mut Vectors) {
    for count in [0usize, 1, 15, 16, 17, 33] {
        let chunks = count.div_ceil(16);
        for (name, end) in
            [("Done", RX_DONE), ("NeedMoreBytes", RD_REQ | TX_EMPTY), ("Done first", RX_DONE | RD_REQ | TX_EMPTY)]
        {
            let mut status = vec![end; chunks];
            status.extend([RD_REQ, TX_EMPTY, end]);
            vectors.add(&format!("respond: {count} bytes, {name}"), respond(count), &[(RAW_INTR_STAT, status)]);
        }
    }
    vectors.add("respond: 4,097 bytes", respond(4097), &[]);
    vectors.add_each_cut("respond", respond(2), &[(RAW_INTR_STAT, vec![0, RX_DONE])], 5);
}

fn response_aborts(vectors: &mut Vectors) {
    let words = [
        0,
        1,
        2,
        4,
        8,
        0x1000,
        0x2000,
        0x1001,
        0x0080_0000,
        0x8000_0000,
        0xFF80_0000,
        0x0080_2008,
        0x0100_0001,
        0x0100_1000,
        0x0040_0000,
        0x0001_0000,
    ];
    for word in words {
        for at in 0..2 {
            let mut status = vec![0; at];
            status.extend([TX_ABRT, RX_DONE]);
            let rules = [(RAW_INTR_STAT, status), (TX_ABRT_SOURCE, vec![word])];
            vectors.add(&format!("respond: abort word {word:#X} in poll {}", at + 1), respond(3), &rules);
        }
    }
    let rules = [(RAW_INTR_STAT, vec![TX_ABRT]), (TX_ABRT_SOURCE, vec![0x0180_0000])];
    vectors.add_each_cut("respond: leftover bytes", respond(1), &rules, 4);
}

fn fills(vectors: &mut Vectors) {
    let more = RD_REQ | TX_EMPTY;
    let left = 0x0180_0000;
    let fill_cases: [(&str, Vec<u32>, u32); 6] = [
        ("Done", vec![0, RX_DONE], 0),
        ("more bytes, then Done", vec![0, more, more, RX_DONE], 0),
        ("leftover bytes", vec![0, TX_ABRT], left),
        ("one leftover byte", vec![0, TX_ABRT], 0x0080_0000),
        ("more bytes, then leftover bytes", vec![0, more, more, TX_ABRT], left),
        ("abort", vec![0, more, TX_ABRT], 0x1000),
    ];
    for (name, status, word) in fill_cases {
        let rules = [(RAW_INTR_STAT, status), (TX_ABRT_SOURCE, vec![word])];
        vectors.add(&format!("fill: {name}"), fill(), &rules);
        vectors.add(&format!("respond and fill: {name}"), respond_and_fill(2), &rules);
    }
    let rules = [(RAW_INTR_STAT, vec![0, more, TX_ABRT]), (TX_ABRT_SOURCE, vec![0x8000])];
    vectors.add("respond and fill: other abort in the fill", respond_and_fill(1), &rules);
    vectors.add("respond and fill: no bytes", respond_and_fill(0), &[]);
    vectors.add_cut("respond and fill: 4,096 bytes and the fill byte", respond_and_fill(4096), &[], 4);
    vectors.add_cut("fill: readings used up", fill(), &[], 3);
}

/// Bit 3 of an abort word, which is no reason of its own here: other abort, or leftover bytes where there is a flush count, and
/// behind the reasons before it.
pub fn add_unacknowledged(vectors: &mut Vectors) {
    for word in [8, 0x1008, 9, 0x0080_0008, 0x0100_1008, 0x0180_0009, 0x18] {
        let rules = [(RAW_INTR_STAT, vec![0, TX_ABRT]), (TX_ABRT_SOURCE, vec![word])];
        vectors.add(&format!("respond: reason of abort word {word:#X}"), respond(2), &rules);
        vectors.add(&format!("fill: reason of abort word {word:#X}"), fill(), &rules);
        let call = respond_and_fill(2);
        vectors.add(&format!("respond and fill: reason of abort word {word:#X}"), call, &rules);
    }
}
