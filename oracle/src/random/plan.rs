//! Draws the arguments of a call, corners first.

use super::rng::Rng;
use crate::call::{Call, Kind, Operation};

const FREQUENCIES: [u32; 14] =
    [0, 1, 2, 3, 1_000, 10_000, 100_000, 400_000, 999_999, 1_000_000, 1_000_001, 1_000_002, 2_000_000, u32::MAX];
const CLOCKS: [u32; 14] = [
    0,
    1,
    8,
    31_999_999,
    32_000_000,
    32_000_001,
    48_000_000,
    125_000_000,
    133_000_000,
    200_000_000,
    1_431_655_764,
    1_431_655_765,
    1_431_655_766,
    u32::MAX,
];
/// Periods at which a count reaches a limit: 8, 16 (spike), 4,096 (spike 0), 65,535.
const PERIODS: [u32; 9] = [17, 18, 19, 26, 27, 28, 6_827, 109_226, 109_227];
const ADDRESSES: [u16; 8] = [0, 0x7F, 0x80, 0xFF, 0x100, 0x3FF, 0x400, 0xFFFF];
const LENGTHS: [usize; 12] = [0, 1, 2, 3, 14, 15, 16, 17, 31, 32, 33, 48];

pub struct Plan<'a> {
    pub rng: &'a mut Rng,
    /// Keeps lengths below 20.
    pub small: bool,
}

impl Plan<'_> {
    pub fn call(&mut self) -> Call {
        match self.rng.below(100) {
            0..10 => self.clock(),
            10..62 => self.master(),
            62..70 => self.reset(),
            70..84 => {
                let length = self.length();
                Call::new(Kind::Listen { length })
            }
            84..92 => self.response(Kind::Respond),
            92..95 => Call::new(Kind::Fill { fill: self.rng.word() as u8 }),
            _ => {
                let fill = self.rng.word() as u8;
                self.response(Kind::RespondAndFill { fill })
            }
        }
    }

    fn clock(&mut self) -> Call {
        if self.rng.chance(64) {
            let clock = self.rng.pick(&[31_999_999, 32_000_000, 32_000_001]);
            return Call::new(Kind::Clock { frequency: 1_000_000, clock });
        }
        let frequency = match self.rng.below(4) {
            0 | 1 => self.rng.pick(&FREQUENCIES),
            2 => self.rng.below(1_000_002),
            _ => self.rng.word() >> self.rng.below(32),
        };
        let near = self.rng.pick(&PERIODS).wrapping_mul(frequency);
        let clock = match self.rng.below(6) {
            0 | 1 => self.rng.pick(&CLOCKS),
            // The period rounds at half a frequency.
            2 => near.wrapping_add(frequency / 2).wrapping_add(self.rng.below(5)).wrapping_sub(2),
            3 => near.wrapping_sub(frequency / 2).wrapping_add(self.rng.below(5)).wrapping_sub(2),
            4 => self.rng.below(300_000_000),
            _ => self.rng.word() >> self.rng.below(32),
        };
        Call::new(Kind::Clock { frequency, clock })
    }

    fn master(&mut self) -> Call {
        let form = (self.rng.below(8) | if self.rng.chance(400) { 8 } else { 0 }) as u8;
        let address = match self.rng.below(16) {
            0 => self.rng.pick(&ADDRESSES),
            1 => self.rng.word() as u16 >> self.rng.below(16),
            _ => self.rng.below(0x80) as u16,
        };
        let mut call = Call::new(Kind::Master { form, address });
        match form % 4 {
            0 => self.read(&mut call),
            1 => self.write(&mut call),
            2 => {
                self.write(&mut call);
                self.read(&mut call);
            }
            _ => self.operations(&mut call),
        }
        call
    }

    fn operations(&mut self, call: &mut Call) {
        let count = match self.rng.below(64) {
            0 if !self.small => self.rng.pick(&[62, 63, 64, 65, 66, 130]),
            1..8 => 0,
            _ => 1 + self.rng.below(5),
        };
        // Many operations, or many empty ones, would hide what follows the first refusal.
        let empty = self.rng.pick(&[0, 0, 0, 30, 300]);
        let reads = self.rng.pick(&[0, 512, 512, 1024]);
        for _ in 0..count {
            let is_read = self.rng.chance(reads);
            let length = if self.rng.chance(empty) {
                0
            } else if count > 8 {
                1 + self.rng.below(3) as usize
            } else {
                self.length().max(1)
            };
            if is_read { call.operations.push(Operation::Read(length)) } else { self.write_of(length, call) }
        }
    }

    fn read(&mut self, call: &mut Call) {
        call.operations.push(Operation::Read(self.length()));
    }

    fn write(&mut self, call: &mut Call) {
        let length = self.length();
        self.write_of(length, call);
    }

    fn write_of(&mut self, length: usize, call: &mut Call) {
        self.bytes(length, call);
        call.operations.push(Operation::Write(length));
    }

    fn bytes(&mut self, length: usize, call: &mut Call) {
        for _ in 0..length {
            call.bytes.push(self.rng.word() as u8);
        }
    }

    fn reset(&mut self) -> Call {
        let address = match self.rng.below(4) {
            0 | 1 => self.rng.pick(&ADDRESSES),
            2 => 1 << self.rng.below(16),
            _ => self.rng.word() as u16,
        };
        Call::new(Kind::Reset { address, general_call: self.rng.chance(512) })
    }

    fn response(&mut self, kind: Kind) -> Call {
        let mut call = Call::new(kind);
        let length = self.length();
        self.bytes(length, &mut call);
        call
    }

    fn length(&mut self) -> usize {
        if self.small {
            return self.rng.pick(&[0, 1, 1, 2, 2, 3, 4, 15, 16, 17]);
        }
        let rng = &mut *self.rng;
        match rng.below(2048) {
            0..800 => rng.below(5) as usize,
            800..1600 => rng.pick(&LENGTHS),
            1600..2000 => rng.below(80) as usize,
            2000..2038 => rng.below(400) as usize,
            2038..2044 => rng.below(4097) as usize,
            2044 => rng.pick(&[4095, 4096]),
            2045 => 4096,
            2046 => rng.pick(&[4097, 4098, 5000]),
            _ => rng.pick(&[2048, 0x1001, 0x8000, 0xFFFF]),
        }
    }
}
