//! Offsets of the registers whose readings are made up here.

pub const CON: u8 = 0x00;
pub const DATA_CMD: u8 = 0x10;
pub const RAW_INTR_STAT: u8 = 0x34;
pub const STATUS: u8 = 0x70;
pub const TXFLR: u8 = 0x74;
pub const RXFLR: u8 = 0x78;
pub const SDA_HOLD: u8 = 0x7C;
pub const TX_ABRT_SOURCE: u8 = 0x80;
pub const INTR_MASK: u8 = 0x30;
