//! A log's entries.

/// An access that a call made, or a mark.
#[derive(Clone, Copy, PartialEq, Eq, Debug)]
pub enum Entry {
    /// A register read: its offset, and the reading.
    Read(u8, u32),
    /// A register written: its offset, and the word.
    Write(u8, u32),
    /// A poll that was not done.
    Pending,
    /// A reset of the block.
    BlockReset,
}

/// The first `count` entries of a log.
pub fn entries(log: &[u32], count: usize) -> impl Iterator<Item = Entry> + '_ {
    log.chunks_exact(2).take(count).map(|words| {
        let offset = words[0] as u8;
        match (words[0] >> 8, offset) {
            (1, _) => Entry::Read(offset, words[1]),
            (2, _) => Entry::Write(offset, words[1]),
            (_, 0) => Entry::Pending,
            _ => Entry::BlockReset,
        }
    })
}
