//! A firmware's main loop that drives I2C transfers one access a turn, beside its other work, against a toy block of registers.

use celadonsaw::{Access, Transfer};
use std::collections::VecDeque;

const DATA_CMD: u8 = 0x10;
const TAR: u8 = 0x04;
const INTR_MASK: u8 = 0x30;
const RAW_INTR_STAT: u8 = 0x34;
const CLR_STOP_DET: u8 = 0x60;
const RXFLR: u8 = 0x78;
const TX_ABRT_SOURCE: u8 = 0x80;

const READ: u32 = 1 << 8;
const STOP: u32 = 1 << 9;
const TX_EMPTY: u32 = 1 << 4;
const STOP_DET: u32 = 1 << 9;
const ADDRESS_NOT_ACKNOWLEDGED: u32 = 1;

/// A controller with a memory of 256 bytes behind it at 0x50. The first byte written sets where the memory is read or written.
/// Each look at RXFLR finds two more received bytes, so that waits occur.
struct Block {
    memory: [u8; 256],
    place: Option<u8>,
    received: VecDeque<u8>,
    arrived: usize,
    target: u32,
    mask: u32,
    stopped: bool,
}

impl Block {
    fn new() -> Self {
        let memory = std::array::from_fn(|place| place as u8);
        Block { memory, place: None, received: VecDeque::new(), arrived: 0, target: 0, mask: 0, stopped: false }
    }

    fn read(&mut self, offset: u8) -> u32 {
        match offset {
            DATA_CMD => {
                self.arrived -= 1;
                self.received.pop_front().unwrap().into()
            }
            RXFLR => {
                self.arrived = self.received.len().min(self.arrived + 2);
                self.arrived as u32
            }
            RAW_INTR_STAT => TX_EMPTY | if self.stopped { STOP_DET } else { 0 },
            CLR_STOP_DET => {
                self.stopped = false;
                0
            }
            INTR_MASK => self.mask,
            TX_ABRT_SOURCE if self.target != 0x50 => ADDRESS_NOT_ACKNOWLEDGED,
            _ => 0,
        }
    }

    fn write(&mut self, offset: u8, word: u32) {
        match offset {
            TAR => self.target = word,
            INTR_MASK => self.mask = word,
            DATA_CMD => self.command(word),
            _ => {}
        }
    }

    fn command(&mut self, word: u32) {
        if self.target == 0x50 {
            match self.place {
                _ if word & READ != 0 => {
                    let place = self.place.unwrap_or(0);
                    self.received.push_back(self.memory[place as usize]);
                    self.place = Some(place.wrapping_add(1));
                }
                None => self.place = Some(word as u8),
                Some(place) => {
                    self.memory[place as usize] = word as u8;
                    self.place = Some(place.wrapping_add(1));
                }
            }
        }
        if word & STOP != 0 {
            self.stopped = true;
            self.place = None;
        }
    }
}

/// Performs an access, and tells what it read; None at the end.
fn perform(access: Access, block: &mut Block) -> Option<u32> {
    let mut reading = 0;
    match access {
        Access::Read(offset) => {
            reading = block.read(offset);
            println!("read  {offset:02X} {reading:08X}");
        }
        Access::Write(offset, word) => {
            block.write(offset, word);
            println!("write {offset:02X} {word:08X}");
        }
        Access::Pending => println!("pending"),
        Access::Ended(answer) => {
            match answer {
                Ok(()) => println!("accepted"),
                Err(refusal) => println!("refused {:?}", refusal.number_and_detail()),
            }
            return None;
        }
    }
    Some(reading)
}

/// The main loop up to a transfer's end. What else the firmware does is counted only.
fn main_loop(name: &str, mut transfer: Transfer, block: &mut Block) {
    println!("-- {name}");
    let mut other_work = 0;
    let mut access = transfer.next_access();
    while let Some(reading) = perform(access, block) {
        access = transfer.step(reading);
        other_work += 1;
    }
    println!("turns of other work: {other_work}");
}

fn main() {
    let mut block = Block::new();
    let mut bytes = [0; 5];
    main_loop("blocking write of 2 bytes to 0x20", Transfer::write(false, 0x50, &[0x20, 0xAA, 0xBB]), &mut block);
    main_loop("async read of 5 bytes from 0x1E", Transfer::write_read(true, 0x50, &[0x1E], &mut bytes), &mut block);
    println!("{bytes:02X?}");
    assert_eq!(bytes, [0x1E, 0x1F, 0xAA, 0xBB, 0x22]);
    main_loop("nobody at 0x51", Transfer::read(false, 0x51, &mut bytes), &mut block);
}
