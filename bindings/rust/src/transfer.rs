//! A master transfer, one access at a time.
use crate::{raw, Refusal};

const MOST_OPERATIONS: usize = 64;

// The blocking forms as the library numbers them; the async ones follow in the same order.
const READ: u8 = 0;
const WRITE: u8 = 1;
const WRITE_READ: u8 = 2;
const TRANSACTION: u8 = 3;
const QUEUED: u8 = 4;

/// An operation of a transaction, with its number of bytes.
#[derive(Clone, Copy, PartialEq, Eq, Debug)]
pub enum Operation {
    Read(u16),
    Write(u16),
}

/// What a transfer does next.
#[derive(Clone, Copy, PartialEq, Eq, Debug)]
pub enum Access {
    /// The register at this offset is to be read, and what it holds handed to [`Transfer::step`].
    Read(u8),
    /// The word is to be written to the register at this offset.
    Write(u8, u32),
    /// A poll is not done: wait for an interrupt, or poll again at once.
    Pending,
    /// The transfer is over.
    Ended(Result<(), Refusal>),
}

/// A transfer under way, over the buffers that it is given.
pub struct Transfer<'a> {
    words: raw::Words,
    /// Where it has a packet error code, the code so far.
    code: Option<raw::Code>,
    kinds: [u8; MOST_OPERATIONS],
    lengths: [u16; MOST_OPERATIONS],
    count: usize,
    write: &'a [u8],
    read: &'a mut [u8],
}

impl<'a> Transfer<'a> {
    /// `form` is that of the blocking transfer, and `queued` takes the async one. More than 64 operations are refused
    /// as any transfer over the limits.
    fn start(
        coded: bool,
        queued: bool,
        form: u8,
        address: u16,
        operations: &[Operation],
        write: &'a [u8],
        read: &'a mut [u8],
    ) -> Self {
        let mut kinds = [0; MOST_OPERATIONS];
        let mut lengths = [0; MOST_OPERATIONS];
        for ((kind, length), operation) in kinds.iter_mut().zip(&mut lengths).zip(operations) {
            (*kind, *length) = match *operation {
                Operation::Read(count) => (0, count),
                Operation::Write(count) => (1, count),
            };
        }
        let count = operations.len().min(MOST_OPERATIONS);
        // Kinds and lengths that differ in number are refused too.
        let kinds_told = if operations.len() > MOST_OPERATIONS { &[] } else { &kinds[..count] };
        let mut words = [0; 20];
        let form = if queued { form + QUEUED } else { form };
        let lengths_told = &lengths[..count];
        let code = if coded {
            let mut code = [0; 2];
            raw::start_pec(&mut words, &mut code, form, address, kinds_told, lengths_told, write.len(), read.len());
            Some(code)
        } else {
            raw::start(&mut words, form, address, kinds_told, lengths_told, write.len(), read.len());
            None
        };
        Transfer { words, code, kinds, lengths, count, write, read }
    }

    pub fn read(queued: bool, address: u16, read: &'a mut [u8]) -> Self {
        Self::start(false, queued, READ, address, &[Operation::Read(length(read))], &[], read)
    }

    pub fn write(queued: bool, address: u16, write: &'a [u8]) -> Self {
        Self::start(false, queued, WRITE, address, &[Operation::Write(length(write))], write, &mut [])
    }

    pub fn write_read(queued: bool, address: u16, write: &'a [u8], read: &'a mut [u8]) -> Self {
        let operations = [Operation::Write(length(write)), Operation::Read(length(read))];
        Self::start(false, queued, WRITE_READ, address, &operations, write, read)
    }

    /// The writes' bytes stand end to end in `write`, the reads' in `read`.
    pub fn transaction(
        queued: bool,
        address: u16,
        operations: &[Operation],
        write: &'a [u8],
        read: &'a mut [u8],
    ) -> Self {
        Self::start(false, queued, TRANSACTION, address, operations, write, read)
    }

    /// As [`Transfer::read`], with a packet error code.
    pub fn read_pec(queued: bool, address: u16, read: &'a mut [u8]) -> Self {
        Self::start(true, queued, READ, address, &[Operation::Read(length(read))], &[], read)
    }

    /// As [`Transfer::write`], with a packet error code.
    pub fn write_pec(queued: bool, address: u16, write: &'a [u8]) -> Self {
        Self::start(true, queued, WRITE, address, &[Operation::Write(length(write))], write, &mut [])
    }

    /// As [`Transfer::write_read`], with a packet error code.
    pub fn write_read_pec(queued: bool, address: u16, write: &'a [u8], read: &'a mut [u8]) -> Self {
        let operations = [Operation::Write(length(write)), Operation::Read(length(read))];
        Self::start(true, queued, WRITE_READ, address, &operations, write, read)
    }

    /// As [`Transfer::transaction`], with a packet error code.
    pub fn transaction_pec(
        queued: bool,
        address: u16,
        operations: &[Operation],
        write: &'a [u8],
        read: &'a mut [u8],
    ) -> Self {
        Self::start(true, queued, TRANSACTION, address, operations, write, read)
    }

    #[inline]
    pub fn next_access(&self) -> Access {
        match &self.code {
            None => raw::next_access(&self.words, self.write).into(),
            Some(code) => raw::next_access_pec(&self.words, code, self.write).into(),
        }
    }

    /// Goes on after the access, which read `value` (0 where it read nothing).
    #[inline]
    pub fn advance(&mut self, value: u32) {
        let (kinds, lengths) = (&self.kinds[..self.count], &self.lengths[..self.count]);
        match &mut self.code {
            None => raw::advance(&mut self.words, value, kinds, lengths, self.read),
            Some(code) => raw::advance_pec(&mut self.words, code, value, kinds, lengths, self.write, self.read),
        }
    }

    /// Goes on after the access, which read `value`, and tells the next one: both in one call.
    #[inline]
    pub fn step(&mut self, value: u32) -> Access {
        let (kinds, lengths) = (&self.kinds[..self.count], &self.lengths[..self.count]);
        match &mut self.code {
            None => raw::step(&mut self.words, value, kinds, lengths, self.write, self.read).into(),
            Some(code) => raw::step_pec(&mut self.words, code, value, kinds, lengths, self.write, self.read).into(),
        }
    }
}

impl From<raw::Access> for Access {
    #[inline]
    fn from(access: raw::Access) -> Self {
        match access.kind {
            1 => Access::Read(access.register),
            2 => Access::Write(access.register, access.value),
            3 => Access::Pending,
            _ if access.number == 0 => Access::Ended(Ok(())),
            _ => Access::Ended(Err(Refusal::from_number(access.number, access.value))),
        }
    }
}

/// A length above 16 bits is over the limits, and so is this one.
fn length(buffer: &[u8]) -> u16 {
    buffer.len().try_into().unwrap_or(u16::MAX)
}
