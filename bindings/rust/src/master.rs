//! Clock setup and the eight transfers of the master, in the original driver's names, the rate of the bus, and the causes of an
//! abort.
//! Each `_async` form goes by polls.
//! Beside each stands a `_pec` form with a packet error code (SMBus), which is neither in the buffers nor in their lengths.
use crate::{raw, Causes, Left, Rate, Refusal};

fn done(report: raw::Report) -> Left<()> {
    Left::new(report, |_| ())
}

/// Sets the bus frequency for a clock, both in Hz.
pub fn set_config(frequency: u32, clock: u32, readings: &[u32], log: &mut [u32]) -> Left<()> {
    done(raw::set_config(frequency, clock, readings, log))
}

/// The rate that the bus gets from a setting, or the refusal that [`set_config`] answers it with. It makes no access: it is the
/// rate once `set_config` has accepted the same setting.
pub fn bus_rate(frequency: u32, clock: u32) -> Result<Rate, Refusal> {
    let raw::BusRate { number, hz, remainder } = raw::bus_rate(frequency, clock);
    match number {
        0 => Ok(Rate { hz, remainder }),
        number => Err(Refusal::from_number(number, 0)),
    }
}

/// The causes of an abort in a raw word, as [`Refusal::OtherAbort`] and [`Refusal::DataNotAcknowledged`] have it: those of bits 0
/// to 16 that are set, or none. Bits 17 to 31, reserved bits and the flush count, are no causes.
pub fn causes(word: u32) -> Option<Causes> {
    let raw::AbortCauses { count, lowest } = raw::causes(word);
    (count != 0).then_some(Causes { count, lowest })
}

pub fn blocking_read(address: u16, read: &mut [u8], readings: &[u32], log: &mut [u32]) -> Left<()> {
    done(raw::blocking_read(address, read, readings, log))
}

pub fn read_async(address: u16, read: &mut [u8], readings: &[u32], log: &mut [u32]) -> Left<()> {
    done(raw::read_async(address, read, readings, log))
}

pub fn blocking_write(address: u16, write: &[u8], readings: &[u32], log: &mut [u32]) -> Left<()> {
    done(raw::blocking_write(address, write, readings, log))
}

pub fn write_async(address: u16, write: &[u8], readings: &[u32], log: &mut [u32]) -> Left<()> {
    done(raw::write_async(address, write, readings, log))
}

pub fn blocking_write_read(address: u16, write: &[u8], read: &mut [u8], readings: &[u32], log: &mut [u32]) -> Left<()> {
    done(raw::blocking_write_read(address, write, read, readings, log))
}

pub fn write_read_async(address: u16, write: &[u8], read: &mut [u8], readings: &[u32], log: &mut [u32]) -> Left<()> {
    done(raw::write_read_async(address, write, read, readings, log))
}

/// Operations by kinds (0 a read, 1 a write) and lengths, beside the bytes of all writes and the room of all reads.
pub fn transaction(
    address: u16,
    kinds: &[u8],
    lengths: &[u16],
    write: &[u8],
    read: &mut [u8],
    readings: &[u32],
    log: &mut [u32],
) -> Left<()> {
    done(raw::transaction(address, kinds, lengths, write, read, readings, log))
}

pub fn transaction_async(
    address: u16,
    kinds: &[u8],
    lengths: &[u16],
    write: &[u8],
    read: &mut [u8],
    readings: &[u32],
    log: &mut [u32],
) -> Left<()> {
    done(raw::transaction_async(address, kinds, lengths, write, read, readings, log))
}

/// As [`blocking_read`], with a packet error code; [`crate::Refusal::WrongPacketErrorCode`] where it is wrong.
pub fn blocking_read_pec(address: u16, read: &mut [u8], readings: &[u32], log: &mut [u32]) -> Left<()> {
    done(raw::blocking_read_pec(address, read, readings, log))
}

/// As [`read_async`], with a packet error code; [`crate::Refusal::WrongPacketErrorCode`] where it is wrong.
pub fn read_async_pec(address: u16, read: &mut [u8], readings: &[u32], log: &mut [u32]) -> Left<()> {
    done(raw::read_async_pec(address, read, readings, log))
}

/// As [`blocking_write`], with a packet error code.
pub fn blocking_write_pec(address: u16, write: &[u8], readings: &[u32], log: &mut [u32]) -> Left<()> {
    done(raw::blocking_write_pec(address, write, readings, log))
}

/// As [`write_async`], with a packet error code.
pub fn write_async_pec(address: u16, write: &[u8], readings: &[u32], log: &mut [u32]) -> Left<()> {
    done(raw::write_async_pec(address, write, readings, log))
}

/// As [`blocking_write_read`], with a packet error code; [`crate::Refusal::WrongPacketErrorCode`] where it ends in a read and the code is wrong.
pub fn blocking_write_read_pec(
    address: u16,
    write: &[u8],
    read: &mut [u8],
    readings: &[u32],
    log: &mut [u32],
) -> Left<()> {
    done(raw::blocking_write_read_pec(address, write, read, readings, log))
}

/// As [`write_read_async`], with a packet error code; [`crate::Refusal::WrongPacketErrorCode`] where it ends in a read and the code is wrong.
pub fn write_read_async_pec(
    address: u16,
    write: &[u8],
    read: &mut [u8],
    readings: &[u32],
    log: &mut [u32],
) -> Left<()> {
    done(raw::write_read_async_pec(address, write, read, readings, log))
}

/// As [`transaction`], with a packet error code; [`crate::Refusal::WrongPacketErrorCode`] where it ends in a read and the code is wrong.
pub fn transaction_pec(
    address: u16,
    kinds: &[u8],
    lengths: &[u16],
    write: &[u8],
    read: &mut [u8],
    readings: &[u32],
    log: &mut [u32],
) -> Left<()> {
    done(raw::transaction_pec(address, kinds, lengths, write, read, readings, log))
}

/// As [`transaction_async`], with a packet error code; [`crate::Refusal::WrongPacketErrorCode`] where it ends in a read and the code is wrong.
pub fn transaction_async_pec(
    address: u16,
    kinds: &[u8],
    lengths: &[u16],
    write: &[u8],
    read: &mut [u8],
    readings: &[u32],
    log: &mut [u32],
) -> Left<()> {
    done(raw::transaction_async_pec(address, kinds, lengths, write, read, readings, log))
}

/// CRC-8 of SMBus over bytes, from a start value: 0, or what the bytes before them left. Over a message with its right
/// code it is 0.
pub fn crc8(start: u8, bytes: &[u8]) -> u8 {
    raw::crc8(start, bytes)
}
