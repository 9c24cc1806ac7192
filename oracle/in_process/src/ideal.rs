//! Readings of a controller at which every transfer goes on at once, for measurements.

use celadonsaw::{Access, Transfer};
use oracle::bus::{Chooser, Entry};

const DATA_CMD: u8 = 0x10;
const RAW_INTR_STAT: u8 = 0x34;
const STATUS: u8 = 0x70;
const RXFLR: u8 = 0x78;

const TX_EMPTY: u32 = 1 << 4;
const RX_DONE: u32 = 1 << 7;
const STOP_DET: u32 = 1 << 9;
const RFNE: u32 = 1 << 3;
const READ: u32 = 1 << 8;

/// Every byte that is read.
pub const BYTE: u32 = 0x5A;

/// The readings that a transfer takes, and the number of its accesses.
pub fn of_transfer(mut transfer: Transfer) -> (Vec<u32>, usize) {
    let mut readings = Vec::new();
    let mut accesses = 0;
    let mut received = 0;
    loop {
        let mut reading = 0;
        match transfer.next_access() {
            Access::Read(offset) => {
                reading = match offset {
                    RAW_INTR_STAT => TX_EMPTY | STOP_DET,
                    RXFLR => received,
                    DATA_CMD => {
                        received -= 1;
                        BYTE
                    }
                    _ => 0,
                };
                readings.push(reading);
            }
            Access::Write(DATA_CMD, word) if word & READ != 0 => received += 1,
            Access::Write(..) | Access::Pending => {}
            Access::Ended(answer) => {
                assert_eq!(answer, Ok(()));
                return (readings, accesses);
            }
        }
        accesses += 1;
        transfer.advance(reading);
    }
}

/// A master that writes so many bytes to the slave, 12 a poll, or that reads what the slave responds.
pub struct Master {
    pub bytes: u32,
    pub in_fifo: u32,
}

impl Chooser for Master {
    fn choose(&mut self, offset: u8, _log: &[Entry]) -> Option<u32> {
        Some(match offset {
            RAW_INTR_STAT if self.bytes == 0 => STOP_DET | RX_DONE,
            RAW_INTR_STAT => {
                self.in_fifo = self.bytes.min(12);
                0
            }
            RXFLR => self.in_fifo,
            STATUS if self.in_fifo > 0 => RFNE,
            DATA_CMD => {
                self.bytes -= 1;
                self.in_fifo -= 1;
                BYTE
            }
            _ => 0,
        })
    }
}
