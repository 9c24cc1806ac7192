//! Clock settings: the proved examples, each limit from both sides, the order of refusals.

use super::Vectors;
use crate::call::{Call, Kind};
use crate::offsets::SDA_HOLD;

const SETTINGS: [(&str, u32, u32); 36] = [
    ("100 kHz at 125 MHz", 100_000, 125_000_000),
    ("400 kHz at 125 MHz", 400_000, 125_000_000),
    ("1 MHz at 125 MHz", 1_000_000, 125_000_000),
    ("1 MHz at the clock it must exceed", 1_000_000, 32_000_000),
    ("1 MHz just above the clock it must exceed", 1_000_000, 32_000_001),
    ("1 MHz just below the clock it must exceed", 1_000_000, 31_999_999),
    ("999,999 Hz at 32 MHz needs no more clock", 999_999, 32_000_000),
    ("period 17", 100_000, 1_700_000),
    ("period 18", 100_000, 1_800_000),
    ("period 18 by rounding up", 100_000, 1_750_000),
    ("period 17 by rounding down", 100_000, 1_749_999),
    ("period 13: lcnt below 8", 1_000, 13_000),
    ("period 20: hcnt 8, lcnt 12", 1_000, 20_000),
    ("period 26: lcnt 15, spike 1", 1_000, 26_000),
    ("period 27: lcnt 16, spike 1", 1_000, 27_000),
    ("period 54: lcnt 32, spike 2", 1_000, 54_000),
    ("lcnt 4,095: spike 255", 1_000, 6_826_000),
    ("lcnt 4,096: spike 0", 1_000, 6_827_000),
    ("lcnt 8,192: spike 0", 1_000, 13_654_000),
    ("period 109,226: lcnt 65,535", 1_000, 109_226_000),
    ("period 109,227: lcnt too large", 1_000, 109_227_000),
    ("frequency 1,000,001", 1_000_001, 125_000_000),
    ("frequency at its largest number", u32::MAX, 0),
    ("frequency 0", 0, 125_000_000),
    ("frequency 0 before a clock too large", 0, u32::MAX),
    ("frequency too high before a clock too large", 1_000_001, u32::MAX),
    ("largest clock, slow frequency", 1, 1_431_655_765),
    ("largest clock, 100 kHz", 100_000, 1_431_655_765),
    ("largest clock, 1 MHz", 1_000_000, 1_431_655_765),
    ("clock above the largest", 100_000, 1_431_655_766),
    ("clock at its largest number", 1, u32::MAX),
    ("clock 0", 100_000, 0),
    ("clock 1", 1, 1),
    ("frequency 1 at the smallest clock", 1, 18),
    ("frequency 2, half rounds up", 2, 35),
    ("133 MHz, 400 kHz", 400_000, 133_000_000),
];

pub fn add(vectors: &mut Vectors) {
    for (name, frequency, clock) in SETTINGS {
        vectors.add(&format!("clock: {name}"), Call::new(Kind::Clock { frequency, clock }), &[]);
    }
    let call = || Call::new(Kind::Clock { frequency: 100_000, clock: 125_000_000 });
    vectors.add("clock: upper half of SDA_HOLD stays", call(), &[(SDA_HOLD, vec![0xFFFF_FFFF])]);
    vectors.add_cut("clock: no reading for SDA_HOLD", call(), &[], 0);
    let mut with_more = call();
    with_more.readings = vec![5, 6, 7];
    vectors.add("clock: readings left over are dropped", with_more, &[]);
    let mut refused = Call::new(Kind::Clock { frequency: 0, clock: 0 });
    refused.readings = vec![1];
    vectors.add("clock: refused with a reading left over", refused, &[]);
}
