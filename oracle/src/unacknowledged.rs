//! The one place where a master's answer is expected to differ from the original's reason for an abort: data bytes that
//! were not acknowledged have a number of their own.
//!
//! The original says NoAcknowledge (9) for bits 0 to 2, then ArbitrationLoss (10) for bit 12, then Other (11) with the word. Here
//! bit 3 stands between the first two: where the original says 10 or 11 of a word with bit 3, the answer is 23 with the word.
//! The slave keeps the original's reasons.

use crate::bus::Entry;
use crate::call::Answer;
use crate::offsets::TX_ABRT_SOURCE;

const NO_ACKNOWLEDGE: u8 = 9;
const ARBITRATION_LOSS: u8 = 10;
const OTHER: u8 = 11;
const DATA_NOT_ACKNOWLEDGED: u8 = 23;

const ADDRESS_BITS: u32 = 0b111;
const DATA_BIT: u32 = 1 << 3;
const ARBITRATION_BIT: u32 = 1 << 12;

/// The abort words that a log read, in order.
pub fn abort_words(log: &[Entry]) -> impl Iterator<Item = u32> {
    log.iter().filter_map(|entry| match *entry {
        Entry::Read(TX_ABRT_SOURCE, word) if word != 0 => Some(word),
        _ => None,
    })
}

/// What the original makes of a word.
fn original_reason(word: u32) -> Answer {
    if word & ADDRESS_BITS != 0 {
        Answer::refused(NO_ACKNOWLEDGE)
    } else if word & ARBITRATION_BIT != 0 {
        Answer::refused(ARBITRATION_LOSS)
    } else {
        Answer::with(OTHER, word)
    }
}

/// The answer expected of a master's call that the original ended with this abort, after these accesses. An ArbitrationLoss
/// has lost its word, so the word is taken from the log: the first one, of which the original's reason must be.
pub fn expected_of_master(original: Answer, log: &[Entry]) -> Answer {
    let word = abort_words(log).next().expect("an abort has its word in the log");
    assert_eq!(original, original_reason(word), "the original's reason is not that of the first abort word {word:#X}");
    match original.number {
        ARBITRATION_LOSS | OTHER if word & DATA_BIT != 0 => Answer::with(DATA_NOT_ACKNOWLEDGED, word),
        _ => original,
    }
}

#[cfg(test)]
mod tests {
    use super::*;

    fn expected(original: Answer, words: &[u32]) -> Answer {
        let log: Vec<Entry> = words.iter().map(|word| Entry::Read(TX_ABRT_SOURCE, *word)).collect();
        expected_of_master(original, &log)
    }

    #[test]
    fn bit_3_after_the_address_bits_and_before_bit_12() {
        assert_eq!(expected(Answer::with(11, 8), &[8]), Answer::with(23, 8));
        assert_eq!(expected(Answer::refused(10), &[0x1008]), Answer::with(23, 0x1008));
        for word in [9, 0xA, 0xC, 0xF, 0x1009] {
            assert_eq!(expected(Answer::refused(9), &[word]), Answer::refused(9));
        }
        assert_eq!(expected(Answer::refused(10), &[0x1000]), Answer::refused(10));
        assert_eq!(expected(Answer::with(11, 0x0080_0010), &[0x0080_0010]), Answer::with(11, 0x0080_0010));
    }

    #[test]
    fn the_first_word_that_is_not_0() {
        assert_eq!(expected(Answer::with(11, 8), &[0, 8, 1]), Answer::with(23, 8));
        assert_eq!(expected(Answer::refused(9), &[0, 1, 8]), Answer::refused(9));
        assert_eq!(expected(Answer::refused(10), &[0x1000, 8]), Answer::refused(10));
    }

    #[test]
    #[should_panic(expected = "first abort word")]
    fn a_reason_of_a_later_word_is_none() {
        expected(Answer::with(11, 8), &[0x10, 8]);
    }
}
