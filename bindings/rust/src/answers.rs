//! What calls answer, in the names of the original driver where it has one.

/// Why a call was turned down.
#[derive(Clone, Copy, PartialEq, Eq, Debug)]
pub enum Refusal {
    FrequencyTooHigh,
    FrequencyZero,
    ClockOutOfRange,
    ClockTooFast,
    ClockTooSlow,
    AddressOutOfRange(u16),
    InvalidReadBufferLength,
    InvalidWriteBufferLength,
    NoAcknowledge,
    ArbitrationLoss,
    OtherAbort(u32),
    TxLevelOutOfRange(u8),
    InvalidResponseBufferLength,
    PartialWrite(u16),
    PartialGeneralCall(u16),
    SlaveAddressZero,
    NoPlaceForPending,
    OutOfReadings,
    LogFull,
    OverLimits,
    WrongPacketErrorCode,
    /// The raw word. Only the master has this one: in a slave's word bit 3 decides nothing.
    DataNotAcknowledged(u32),
}

/// The rate that the bus gets from a clock setting, by its counts: clock = hz × (hcnt + lcnt) + remainder.
#[derive(Clone, Copy, PartialEq, Eq, Debug)]
pub struct Rate {
    /// Whole Hz, at least 1.
    pub hz: u32,
    /// What the division leaves, below hcnt + lcnt.
    pub remainder: u32,
}

/// The causes of an abort that a raw word has, at least one.
#[derive(Clone, Copy, PartialEq, Eq, Debug)]
pub struct Causes {
    /// How many are set, 1 to 17.
    pub count: u8,
    /// The bit of the lowest of them, 0 to 16.
    pub lowest: u8,
}

/// What a slave that listens received.
#[derive(Clone, Copy, PartialEq, Eq, Debug)]
pub enum Command {
    GeneralCall(u16),
    Read,
    WriteRead(u16),
    Write(u16),
}

/// How a slave's response ended.
#[derive(Clone, Copy, PartialEq, Eq, Debug)]
pub enum ReadStatus {
    Done,
    NeedMoreBytes,
    LeftoverBytes(u16),
}

impl Refusal {
    /// The number that every refusal has, and its detail.
    pub fn number_and_detail(self) -> (u8, u32) {
        match self {
            Refusal::FrequencyTooHigh => (1, 0),
            Refusal::FrequencyZero => (2, 0),
            Refusal::ClockOutOfRange => (3, 0),
            Refusal::ClockTooFast => (4, 0),
            Refusal::ClockTooSlow => (5, 0),
            Refusal::AddressOutOfRange(address) => (6, address.into()),
            Refusal::InvalidReadBufferLength => (7, 0),
            Refusal::InvalidWriteBufferLength => (8, 0),
            Refusal::NoAcknowledge => (9, 0),
            Refusal::ArbitrationLoss => (10, 0),
            Refusal::OtherAbort(word) => (11, word),
            Refusal::TxLevelOutOfRange(level) => (12, level.into()),
            Refusal::InvalidResponseBufferLength => (13, 0),
            Refusal::PartialWrite(length) => (14, length.into()),
            Refusal::PartialGeneralCall(length) => (15, length.into()),
            Refusal::SlaveAddressZero => (16, 0),
            Refusal::NoPlaceForPending => (17, 0),
            Refusal::OutOfReadings => (18, 0),
            Refusal::LogFull => (19, 0),
            Refusal::OverLimits => (20, 0),
            Refusal::WrongPacketErrorCode => (22, 0),
            Refusal::DataNotAcknowledged(word) => (23, word),
        }
    }

    /// The refusal of a number above 0. The library returns no other than these.
    pub(crate) fn from_number(number: u8, detail: u32) -> Refusal {
        match number {
            1 => Refusal::FrequencyTooHigh,
            2 => Refusal::FrequencyZero,
            3 => Refusal::ClockOutOfRange,
            4 => Refusal::ClockTooFast,
            5 => Refusal::ClockTooSlow,
            6 => Refusal::AddressOutOfRange(detail as u16),
            7 => Refusal::InvalidReadBufferLength,
            8 => Refusal::InvalidWriteBufferLength,
            9 => Refusal::NoAcknowledge,
            10 => Refusal::ArbitrationLoss,
            11 => Refusal::OtherAbort(detail),
            12 => Refusal::TxLevelOutOfRange(detail as u8),
            13 => Refusal::InvalidResponseBufferLength,
            14 => Refusal::PartialWrite(detail as u16),
            15 => Refusal::PartialGeneralCall(detail as u16),
            16 => Refusal::SlaveAddressZero,
            17 => Refusal::NoPlaceForPending,
            18 => Refusal::OutOfReadings,
            19 => Refusal::LogFull,
            20 => Refusal::OverLimits,
            22 => Refusal::WrongPacketErrorCode,
            23 => Refusal::DataNotAcknowledged(detail),
            _ => unreachable!("number {number}"),
        }
    }
}

impl Command {
    /// The detail that stands for it: a kind, then a count.
    pub fn detail(self) -> u32 {
        match self {
            Command::GeneralCall(count) => 1 << 16 | u32::from(count),
            Command::Read => 2 << 16,
            Command::WriteRead(count) => 3 << 16 | u32::from(count),
            Command::Write(count) => 4 << 16 | u32::from(count),
        }
    }

    pub(crate) fn from_detail(detail: u32) -> Command {
        let count = detail as u16;
        match detail >> 16 {
            1 => Command::GeneralCall(count),
            2 => Command::Read,
            3 => Command::WriteRead(count),
            4 => Command::Write(count),
            kind => unreachable!("command {kind}"),
        }
    }
}

impl ReadStatus {
    /// The detail that stands for it: a kind, then a count.
    pub fn detail(self) -> u32 {
        match self {
            ReadStatus::Done => 1 << 16,
            ReadStatus::NeedMoreBytes => 2 << 16,
            ReadStatus::LeftoverBytes(count) => 3 << 16 | u32::from(count),
        }
    }

    pub(crate) fn from_detail(detail: u32) -> ReadStatus {
        match detail >> 16 {
            1 => ReadStatus::Done,
            2 => ReadStatus::NeedMoreBytes,
            3 => ReadStatus::LeftoverBytes(detail as u16),
            kind => unreachable!("status {kind}"),
        }
    }
}
