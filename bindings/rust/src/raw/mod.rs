//! The static library's structs and functions, as `include/celadonsaw.h` declares them.

mod calls;
#[cfg(test)]
mod tests;

pub use calls::*;

#[repr(C)]
#[derive(Clone, Copy)]
pub struct Report {
    pub number: u8,
    pub detail: u32,
    pub entries: usize,
    pub used: usize,
}

#[repr(C)]
#[derive(Clone, Copy)]
pub struct BusRate {
    pub number: u8,
    pub hz: u32,
    pub remainder: u32,
}

#[repr(C)]
#[derive(Clone, Copy)]
pub struct AbortCauses {
    pub count: u8,
    pub lowest: u8,
}

#[repr(C)]
#[derive(Clone, Copy)]
pub struct Slave {
    pub has_pending: bool,
    pub pending_byte: u8,
    pub address: u16,
    pub general_call: bool,
}

#[repr(C)]
#[derive(Clone, Copy)]
pub struct SlaveReport {
    pub state: Slave,
    pub report: Report,
}

/// A transfer. Nothing outside the library looks inside.
pub type Words = [u64; 20];

/// The packet error code of a transfer under way: the register, and the direction of the last data byte.
pub type Code = [u8; 2];

#[repr(C)]
#[derive(Clone, Copy)]
pub struct Access {
    pub kind: u8,
    pub register: u8,
    pub number: u8,
    pub value: u32,
}

extern "C" {
    fn celadonsaw_set_config(
        frequency: u32,
        clk: u32,
        readings: *const u32,
        readings_len: usize,
        log: *mut u32,
        log_len: usize,
    ) -> Report;
    fn celadonsaw_bus_rate(frequency: u32, clk: u32) -> BusRate;
    fn celadonsaw_causes(word: u32) -> AbortCauses;
    fn celadonsaw_blocking_read(
        address: u16,
        read: *mut u8,
        read_len: usize,
        readings: *const u32,
        readings_len: usize,
        log: *mut u32,
        log_len: usize,
    ) -> Report;
    fn celadonsaw_blocking_write(
        address: u16,
        write: *const u8,
        write_len: usize,
        readings: *const u32,
        readings_len: usize,
        log: *mut u32,
        log_len: usize,
    ) -> Report;
    fn celadonsaw_blocking_write_read(
        address: u16,
        write: *const u8,
        write_len: usize,
        read: *mut u8,
        read_len: usize,
        readings: *const u32,
        readings_len: usize,
        log: *mut u32,
        log_len: usize,
    ) -> Report;
    fn celadonsaw_transaction(
        address: u16,
        kinds: *const u8,
        kinds_len: usize,
        lengths: *const u16,
        lengths_len: usize,
        write: *const u8,
        write_len: usize,
        read: *mut u8,
        read_len: usize,
        readings: *const u32,
        readings_len: usize,
        log: *mut u32,
        log_len: usize,
    ) -> Report;
    fn celadonsaw_read_async(
        address: u16,
        read: *mut u8,
        read_len: usize,
        readings: *const u32,
        readings_len: usize,
        log: *mut u32,
        log_len: usize,
    ) -> Report;
    fn celadonsaw_write_async(
        address: u16,
        write: *const u8,
        write_len: usize,
        readings: *const u32,
        readings_len: usize,
        log: *mut u32,
        log_len: usize,
    ) -> Report;
    fn celadonsaw_write_read_async(
        address: u16,
        write: *const u8,
        write_len: usize,
        read: *mut u8,
        read_len: usize,
        readings: *const u32,
        readings_len: usize,
        log: *mut u32,
        log_len: usize,
    ) -> Report;
    fn celadonsaw_transaction_async(
        address: u16,
        kinds: *const u8,
        kinds_len: usize,
        lengths: *const u16,
        lengths_len: usize,
        write: *const u8,
        write_len: usize,
        read: *mut u8,
        read_len: usize,
        readings: *const u32,
        readings_len: usize,
        log: *mut u32,
        log_len: usize,
    ) -> Report;
    fn celadonsaw_slave_reset(
        slave: Slave,
        address: u16,
        general_call: bool,
        readings: *const u32,
        readings_len: usize,
        log: *mut u32,
        log_len: usize,
    ) -> SlaveReport;
    fn celadonsaw_slave_listen(
        slave: Slave,
        buffer: *mut u8,
        buffer_len: usize,
        readings: *const u32,
        readings_len: usize,
        log: *mut u32,
        log_len: usize,
    ) -> SlaveReport;
    fn celadonsaw_slave_respond_to_read(
        slave: Slave,
        bytes: *const u8,
        bytes_len: usize,
        readings: *const u32,
        readings_len: usize,
        log: *mut u32,
        log_len: usize,
    ) -> SlaveReport;
    fn celadonsaw_slave_respond_till_stop(
        slave: Slave,
        fill: u8,
        readings: *const u32,
        readings_len: usize,
        log: *mut u32,
        log_len: usize,
    ) -> SlaveReport;
    fn celadonsaw_slave_respond_and_fill(
        slave: Slave,
        bytes: *const u8,
        bytes_len: usize,
        fill: u8,
        readings: *const u32,
        readings_len: usize,
        log: *mut u32,
        log_len: usize,
    ) -> SlaveReport;
    fn celadonsaw_start(
        words: *mut Words,
        form: u8,
        address: u16,
        kinds: *const u8,
        kinds_len: usize,
        lengths: *const u16,
        lengths_len: usize,
        written: usize,
        room: usize,
    );
    fn celadonsaw_next_access(words: *const Words, write: *const u8, write_len: usize) -> Access;
    fn celadonsaw_advance(
        words: *mut Words,
        value: u32,
        kinds: *const u8,
        kinds_len: usize,
        lengths: *const u16,
        lengths_len: usize,
        read: *mut u8,
        read_len: usize,
    );
    fn celadonsaw_step(
        words: *mut Words,
        value: u32,
        kinds: *const u8,
        kinds_len: usize,
        lengths: *const u16,
        lengths_len: usize,
        write: *const u8,
        write_len: usize,
        read: *mut u8,
        read_len: usize,
    ) -> Access;
    fn celadonsaw_blocking_read_pec(
        address: u16,
        read: *mut u8,
        read_len: usize,
        readings: *const u32,
        readings_len: usize,
        log: *mut u32,
        log_len: usize,
    ) -> Report;
    fn celadonsaw_blocking_write_pec(
        address: u16,
        write: *const u8,
        write_len: usize,
        readings: *const u32,
        readings_len: usize,
        log: *mut u32,
        log_len: usize,
    ) -> Report;
    fn celadonsaw_blocking_write_read_pec(
        address: u16,
        write: *const u8,
        write_len: usize,
        read: *mut u8,
        read_len: usize,
        readings: *const u32,
        readings_len: usize,
        log: *mut u32,
        log_len: usize,
    ) -> Report;
    fn celadonsaw_transaction_pec(
        address: u16,
        kinds: *const u8,
        kinds_len: usize,
        lengths: *const u16,
        lengths_len: usize,
        write: *const u8,
        write_len: usize,
        read: *mut u8,
        read_len: usize,
        readings: *const u32,
        readings_len: usize,
        log: *mut u32,
        log_len: usize,
    ) -> Report;
    fn celadonsaw_read_async_pec(
        address: u16,
        read: *mut u8,
        read_len: usize,
        readings: *const u32,
        readings_len: usize,
        log: *mut u32,
        log_len: usize,
    ) -> Report;
    fn celadonsaw_write_async_pec(
        address: u16,
        write: *const u8,
        write_len: usize,
        readings: *const u32,
        readings_len: usize,
        log: *mut u32,
        log_len: usize,
    ) -> Report;
    fn celadonsaw_write_read_async_pec(
        address: u16,
        write: *const u8,
        write_len: usize,
        read: *mut u8,
        read_len: usize,
        readings: *const u32,
        readings_len: usize,
        log: *mut u32,
        log_len: usize,
    ) -> Report;
    fn celadonsaw_transaction_async_pec(
        address: u16,
        kinds: *const u8,
        kinds_len: usize,
        lengths: *const u16,
        lengths_len: usize,
        write: *const u8,
        write_len: usize,
        read: *mut u8,
        read_len: usize,
        readings: *const u32,
        readings_len: usize,
        log: *mut u32,
        log_len: usize,
    ) -> Report;
    fn celadonsaw_crc8(start: u8, bytes: *const u8, bytes_len: usize) -> u8;
    fn celadonsaw_start_pec(
        words: *mut Words,
        code: *mut Code,
        form: u8,
        address: u16,
        kinds: *const u8,
        kinds_len: usize,
        lengths: *const u16,
        lengths_len: usize,
        written: usize,
        room: usize,
    );
    fn celadonsaw_next_access_pec(words: *const Words, code: *const Code, write: *const u8, write_len: usize)
        -> Access;
    fn celadonsaw_advance_pec(
        words: *mut Words,
        code: *mut Code,
        value: u32,
        kinds: *const u8,
        kinds_len: usize,
        lengths: *const u16,
        lengths_len: usize,
        write: *const u8,
        write_len: usize,
        read: *mut u8,
        read_len: usize,
    );
    fn celadonsaw_step_pec(
        words: *mut Words,
        code: *mut Code,
        value: u32,
        kinds: *const u8,
        kinds_len: usize,
        lengths: *const u16,
        lengths_len: usize,
        write: *const u8,
        write_len: usize,
        read: *mut u8,
        read_len: usize,
    ) -> Access;
}
