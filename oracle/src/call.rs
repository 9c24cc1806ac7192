//! A call as its frames give it, and the answer to it.

pub const MOST_READINGS: usize = 8192;
pub const MOST_BYTES: usize = 4096;
pub const MOST_OPERATIONS: usize = 64;

#[derive(Clone, Copy, PartialEq, Eq, Debug)]
pub enum Kind {
    Clock {
        frequency: u32,
        clock: u32,
    },
    /// Bits 0 and 1 of the form: read, write, write-read, transaction; bit 2: async; bit 3: packet error code.
    Master {
        form: u8,
        address: u16,
    },
    Reset {
        address: u16,
        general_call: bool,
    },
    Listen {
        length: usize,
    },
    Respond,
    Fill {
        fill: u8,
    },
    RespondAndFill {
        fill: u8,
    },
}

#[derive(Clone, Copy, PartialEq, Eq, Debug)]
pub enum Operation {
    Write(usize),
    Read(usize),
}

#[derive(Clone, Debug)]
pub struct Call {
    pub kind: Kind,
    pub operations: Vec<Operation>,
    /// The bytes of all writes end to end, or of a response.
    pub bytes: Vec<u8>,
    pub readings: Vec<u32>,
}

#[derive(Clone, Copy, PartialEq, Eq, Debug)]
pub struct Answer {
    pub number: u8,
    pub detail: u32,
}

impl Answer {
    pub const ACCEPTED: Answer = Answer::refused(0);

    pub const fn refused(number: u8) -> Self {
        Answer { number, detail: 0 }
    }

    pub const fn with(number: u8, detail: u32) -> Self {
        Answer { number, detail }
    }

    /// An accepted slave call: its kind in 4 digits, then a count in 4.
    pub const fn counted(kind: u32, count: usize) -> Self {
        Answer { number: 0, detail: kind << 16 | count as u32 }
    }
}

impl Call {
    pub fn new(kind: Kind) -> Self {
        Call { kind, operations: Vec::new(), bytes: Vec::new(), readings: Vec::new() }
    }

    /// Makes this the call of a new call frame, keeping the memory of the one before.
    pub fn restart(&mut self, kind: Kind) {
        self.kind = kind;
        self.operations.clear();
        self.bytes.clear();
        self.readings.clear();
    }

    /// The bytes that the call may store.
    pub fn read_length(&self) -> usize {
        match self.kind {
            Kind::Listen { length } => length,
            _ => self.operations.iter().map(|op| if let Operation::Read(length) = op { *length } else { 0 }).sum(),
        }
    }

    /// Whether an answer shows a buffer.
    pub fn has_buffer(&self) -> bool {
        matches!(self.kind, Kind::Listen { .. }) || self.operations.iter().any(|op| matches!(op, Operation::Read(_)))
    }

    pub fn is_beyond_limits(&self) -> bool {
        self.bytes.len() > MOST_BYTES || self.read_length() > MOST_BYTES || self.operations.len() > MOST_OPERATIONS
    }

    /// Whether the form takes this operation after those it has.
    pub fn takes(&self, next: Operation) -> bool {
        let Kind::Master { form, .. } = self.kind else { return false };
        let is_read = matches!(next, Operation::Read(_));
        match (form % 4, self.operations.len()) {
            (0, 0) | (2, 1) => is_read,
            (1, 0) | (2, 0) => !is_read,
            (3, _) => true,
            _ => false,
        }
    }

    /// Whether the form has all its operations.
    pub fn is_complete(&self) -> bool {
        match self.kind {
            Kind::Master { form, .. } => match form % 4 {
                0 | 1 => self.operations.len() == 1,
                2 => self.operations.len() == 2,
                _ => true,
            },
            _ => true,
        }
    }
}
