//! The functions with slices for pointers and lengths, and so safe.

use super::*;

// A call with its arguments in order: a `ref` or `mut` slice is passed as a pointer and a length, any other value as it is.
// SAFETY: the functions are proved for all inputs of these types. References are valid, aligned and not null, a `&mut` overlaps
// nothing, and the library keeps no pointer.
macro_rules! call {
    (@ $function:ident [$($passed:expr),*]) => {
        unsafe { $function($($passed),*) }
    };
    (@ $function:ident [$($passed:expr),*] ref $slice:ident $(, $($rest:tt)+)?) => {
        call!(@ $function [$($passed,)* $slice.as_ptr(), $slice.len()] $($($rest)+)?)
    };
    (@ $function:ident [$($passed:expr),*] mut $slice:ident $(, $($rest:tt)+)?) => {
        call!(@ $function [$($passed,)* $slice.as_mut_ptr(), $slice.len()] $($($rest)+)?)
    };
    (@ $function:ident [$($passed:expr),*] $value:ident $(, $($rest:tt)+)?) => {
        call!(@ $function [$($passed,)* $value] $($($rest)+)?)
    };
    ($function:ident($($arguments:tt)+)) => {
        call!(@ $function [] $($arguments)+)
    };
}

pub fn set_config(frequency: u32, clk: u32, readings: &[u32], log: &mut [u32]) -> Report {
    call!(celadonsaw_set_config(frequency, clk, ref readings, mut log))
}

pub fn bus_rate(frequency: u32, clk: u32) -> BusRate {
    call!(celadonsaw_bus_rate(frequency, clk))
}

pub fn causes(word: u32) -> AbortCauses {
    call!(celadonsaw_causes(word))
}

pub fn blocking_read(address: u16, read: &mut [u8], readings: &[u32], log: &mut [u32]) -> Report {
    call!(celadonsaw_blocking_read(address, mut read, ref readings, mut log))
}

pub fn blocking_write(address: u16, write: &[u8], readings: &[u32], log: &mut [u32]) -> Report {
    call!(celadonsaw_blocking_write(address, ref write, ref readings, mut log))
}

pub fn blocking_write_read(address: u16, write: &[u8], read: &mut [u8], readings: &[u32], log: &mut [u32]) -> Report {
    call!(celadonsaw_blocking_write_read(address, ref write, mut read, ref readings, mut log))
}

pub fn transaction(
    address: u16,
    kinds: &[u8],
    lengths: &[u16],
    write: &[u8],
    read: &mut [u8],
    readings: &[u32],
    log: &mut [u32],
) -> Report {
    call!(celadonsaw_transaction(address, ref kinds, ref lengths, ref write, mut read, ref readings, mut log))
}

pub fn read_async(address: u16, read: &mut [u8], readings: &[u32], log: &mut [u32]) -> Report {
    call!(celadonsaw_read_async(address, mut read, ref readings, mut log))
}

pub fn write_async(address: u16, write: &[u8], readings: &[u32], log: &mut [u32]) -> Report {
    call!(celadonsaw_write_async(address, ref write, ref readings, mut log))
}

pub fn write_read_async(address: u16, write: &[u8], read: &mut [u8], readings: &[u32], log: &mut [u32]) -> Report {
    call!(celadonsaw_write_read_async(address, ref write, mut read, ref readings, mut log))
}

pub fn transaction_async(
    address: u16,
    kinds: &[u8],
    lengths: &[u16],
    write: &[u8],
    read: &mut [u8],
    readings: &[u32],
    log: &mut [u32],
) -> Report {
    call!(celadonsaw_transaction_async(address, ref kinds, ref lengths, ref write, mut read, ref readings, mut log))
}

pub fn blocking_read_pec(address: u16, read: &mut [u8], readings: &[u32], log: &mut [u32]) -> Report {
    call!(celadonsaw_blocking_read_pec(address, mut read, ref readings, mut log))
}

pub fn blocking_write_pec(address: u16, write: &[u8], readings: &[u32], log: &mut [u32]) -> Report {
    call!(celadonsaw_blocking_write_pec(address, ref write, ref readings, mut log))
}

pub fn blocking_write_read_pec(
    address: u16,
    write: &[u8],
    read: &mut [u8],
    readings: &[u32],
    log: &mut [u32],
) -> Report {
    call!(celadonsaw_blocking_write_read_pec(address, ref write, mut read, ref readings, mut log))
}

pub fn transaction_pec(
    address: u16,
    kinds: &[u8],
    lengths: &[u16],
    write: &[u8],
    read: &mut [u8],
    readings: &[u32],
    log: &mut [u32],
) -> Report {
    call!(celadonsaw_transaction_pec(address, ref kinds, ref lengths, ref write, mut read, ref readings, mut log))
}

pub fn read_async_pec(address: u16, read: &mut [u8], readings: &[u32], log: &mut [u32]) -> Report {
    call!(celadonsaw_read_async_pec(address, mut read, ref readings, mut log))
}

pub fn write_async_pec(address: u16, write: &[u8], readings: &[u32], log: &mut [u32]) -> Report {
    call!(celadonsaw_write_async_pec(address, ref write, ref readings, mut log))
}

pub fn write_read_async_pec(address: u16, write: &[u8], read: &mut [u8], readings: &[u32], log: &mut [u32]) -> Report {
    call!(celadonsaw_write_read_async_pec(address, ref write, mut read, ref readings, mut log))
}

pub fn transaction_async_pec(
    address: u16,
    kinds: &[u8],
    lengths: &[u16],
    write: &[u8],
    read: &mut [u8],
    readings: &[u32],
    log: &mut [u32],
) -> Report {
    call!(celadonsaw_transaction_async_pec(address, ref kinds, ref lengths, ref write, mut read, ref readings, mut log))
}

pub fn crc8(start: u8, bytes: &[u8]) -> u8 {
    call!(celadonsaw_crc8(start, ref bytes))
}

pub fn slave_reset(slave: Slave, address: u16, general_call: bool, readings: &[u32], log: &mut [u32]) -> SlaveReport {
    call!(celadonsaw_slave_reset(slave, address, general_call, ref readings, mut log))
}

pub fn slave_listen(slave: Slave, buffer: &mut [u8], readings: &[u32], log: &mut [u32]) -> SlaveReport {
    call!(celadonsaw_slave_listen(slave, mut buffer, ref readings, mut log))
}

pub fn slave_respond_to_read(slave: Slave, bytes: &[u8], readings: &[u32], log: &mut [u32]) -> SlaveReport {
    call!(celadonsaw_slave_respond_to_read(slave, ref bytes, ref readings, mut log))
}

pub fn slave_respond_till_stop(slave: Slave, fill: u8, readings: &[u32], log: &mut [u32]) -> SlaveReport {
    call!(celadonsaw_slave_respond_till_stop(slave, fill, ref readings, mut log))
}

pub fn slave_respond_and_fill(slave: Slave, bytes: &[u8], fill: u8, readings: &[u32], log: &mut [u32]) -> SlaveReport {
    call!(celadonsaw_slave_respond_and_fill(slave, ref bytes, fill, ref readings, mut log))
}

pub fn start(words: &mut Words, form: u8, address: u16, kinds: &[u8], lengths: &[u16], written: usize, room: usize) {
    call!(celadonsaw_start(words, form, address, ref kinds, ref lengths, written, room))
}

#[inline]
pub fn next_access(words: &Words, write: &[u8]) -> Access {
    call!(celadonsaw_next_access(words, ref write))
}

#[inline]
pub fn advance(words: &mut Words, value: u32, kinds: &[u8], lengths: &[u16], read: &mut [u8]) {
    call!(celadonsaw_advance(words, value, ref kinds, ref lengths, mut read))
}

#[inline]
pub fn step(words: &mut Words, value: u32, kinds: &[u8], lengths: &[u16], write: &[u8], read: &mut [u8]) -> Access {
    call!(celadonsaw_step(words, value, ref kinds, ref lengths, ref write, mut read))
}

pub fn start_pec(
    words: &mut Words,
    code: &mut Code,
    form: u8,
    address: u16,
    kinds: &[u8],
    lengths: &[u16],
    written: usize,
    room: usize,
) {
    call!(celadonsaw_start_pec(words, code, form, address, ref kinds, ref lengths, written, room))
}

#[inline]
pub fn next_access_pec(words: &Words, code: &Code, write: &[u8]) -> Access {
    call!(celadonsaw_next_access_pec(words, code, ref write))
}

#[inline]
pub fn advance_pec(
    words: &mut Words,
    code: &mut Code,
    value: u32,
    kinds: &[u8],
    lengths: &[u16],
    write: &[u8],
    read: &mut [u8],
) {
    call!(celadonsaw_advance_pec(words, code, value, ref kinds, ref lengths, ref write, mut read))
}

#[inline]
pub fn step_pec(
    words: &mut Words,
    code: &mut Code,
    value: u32,
    kinds: &[u8],
    lengths: &[u16],
    write: &[u8],
    read: &mut [u8],
) -> Access {
    call!(celadonsaw_step_pec(words, code, value, ref kinds, ref lengths, ref write, mut read))
}
