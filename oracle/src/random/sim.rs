//! Makes up readings while the original driver runs: a rough controller with a call's own habits,
//! so that most calls get somewhere and every wait, abort and refusal is met.

use super::rng::Rng;
use crate::bus::{Chooser, Entry};
use crate::call::Kind;
use crate::offsets::*;

const TX_EMPTY: u32 = 1 << 4;
const RD_REQ: u32 = 1 << 5;
const TX_ABRT: u32 = 1 << 6;
const RX_DONE: u32 = 1 << 7;
const STOP_DET: u32 = 1 << 9;
const GEN_CALL: u32 = 1 << 11;
const RESTART_DET: u32 = 1 << 12;
const RFNE: u32 = 1 << 3;
const FIRST: u32 = 1 << 11;

/// Drawn once for each call.
struct Habits {
    /// Readings until they run out.
    budget: usize,
    /// Chance of an arbitrary reading.
    wild: u32,
    /// Whether bits without a meaning are set as well.
    noise: bool,
    /// Chance that a wait is not over.
    late: u32,
    /// Waits do not end before the log has so many entries.
    wait_until: usize,
    /// Whether the transmit FIFO stays full during such a wait.
    full: bool,
    /// Reads of the abort source, or of the slave's status, before an abort; of TXFLR before a bad level.
    abort_in: Option<u32>,
    overfull_in: Option<u32>,
    /// Chance of each status bit of the slave, and of a first-byte mark.
    status: u32,
    first: u32,
    /// Status bits at the end of the message that the slave receives.
    ending: u32,
}

pub struct Sim {
    rng: Rng,
    kind: Kind,
    habits: Habits,
    given: usize,
    /// Entries of the log already looked at.
    seen: usize,
    /// Words in the transmit FIFO, those of them that read, and bytes in the receive FIFO.
    waiting: u32,
    reads: u32,
    received: u32,
    /// Bytes that the slave has still to receive, and those in its FIFO.
    message: u32,
}

impl Habits {
    fn draw(rng: &mut Rng) -> Self {
        let budget = match rng.below(128) {
            0..10 => rng.below(50) as usize,
            10..14 => rng.below(600) as usize,
            _ => usize::MAX,
        };
        let wait_until = match rng.below(2400) {
            0 => rng.below(8192) as usize,
            1..4 => 8192 - rng.below(50) as usize,
            4..8 => usize::MAX,
            8..40 => rng.below(200) as usize,
            _ => 0,
        };
        let soon = |rng: &mut Rng, of: u32| (rng.below(of) == 0).then(|| rng.below(30) >> rng.below(5));
        Habits {
            budget,
            wild: rng.pick(&[0, 0, 0, 0, 0, 0, 0, 20, 100, 1024]),
            noise: rng.chance(340),
            late: rng.pick(&[0, 0, 0, 100, 400, 800]),
            wait_until,
            full: rng.chance(512),
            abort_in: soon(rng, 5),
            overfull_in: soon(rng, 20),
            status: rng.pick(&[10, 60, 256, 512]),
            first: rng.pick(&[0, 0, 60, 400]),
            ending: rng.pick(&[
                STOP_DET,
                STOP_DET,
                RD_REQ,
                RD_REQ | RESTART_DET,
                STOP_DET | GEN_CALL,
                STOP_DET | RD_REQ,
                STOP_DET | RD_REQ | RESTART_DET | GEN_CALL,
                GEN_CALL,
                RESTART_DET,
            ]),
        }
    }
}

impl Sim {
    pub fn new(mut rng: Rng, kind: Kind) -> Self {
        let habits = Habits::draw(&mut rng);
        let length = if let Kind::Listen { length } = kind { length as u32 } else { 0 };
        let message = match rng.below(8) {
            0 => 0,
            1 => length.saturating_sub(1),
            2 => length,
            3 => length + 1,
            4 => 2 * length + 1,
            _ => rng.below(length + 4),
        };
        Sim { rng, kind, habits, given: 0, seen: 0, waiting: 0, reads: 0, received: 0, message }
    }

    /// Takes note of the words written since the last reading.
    fn observe(&mut self, log: &[Entry]) {
        for entry in &log[self.seen..] {
            if let Entry::Write(DATA_CMD, word) = entry {
                self.waiting += 1;
                self.reads += *word >> 8 & 1;
            }
        }
        self.seen = log.len();
    }

    /// The bus carries out some of the words waiting.
    fn carry(&mut self, count: u32) {
        let reads = count.min(self.reads);
        self.waiting -= count;
        self.reads -= reads;
        self.received += reads;
    }

    fn some_of(&mut self, count: u32) -> u32 {
        if self.rng.chance(self.habits.late) { self.rng.below(count + 1) } else { count }
    }

    /// Counts down to an event that happens once, or seldom again.
    fn due(rng: &mut Rng, countdown: &mut Option<u32>) -> bool {
        match countdown {
            Some(0) => {
                *countdown = rng.chance(256).then(|| rng.below(4));
                true
            }
            Some(left) => {
                *left -= 1;
                false
            }
            None => false,
        }
    }

    fn abort_word(&mut self) -> u32 {
        let rng = &mut self.rng;
        let flushed = match rng.below(4) {
            0 => rng.pick(&[1, 2, 16, 255, 256, 511]),
            _ => 1 + rng.below(511),
        } << 23;
        // Bit 3 alone, with bit 12 and with bits 0 to 2: a master's reasons are told apart by these.
        match rng.below(14) {
            0 | 1 => 1 << rng.below(17),
            2 => 1 << rng.below(17) | 1 << rng.below(17),
            3 | 4 => 1 << 3,
            5 => 1 << 12 | rng.below(2) << 3,
            6 => 1 << 12 | 1 << 3,
            7 => 1 << 3 | rng.below(8),
            8 => flushed,
            9 => flushed | 1 << rng.below(17),
            10 => flushed | 1 << 3 | rng.below(2) << 12,
            11 => rng.word(),
            12 => 1 << rng.below(32),
            _ => rng.below(8) << rng.below(30),
        }
    }

    fn tx_level(&mut self, held: bool) -> u32 {
        if Self::due(&mut self.rng, &mut self.habits.overfull_in) {
            return self.rng.pick(&[17, 17, 18, 30, 31]);
        }
        if held && self.habits.full {
            return 16;
        }
        let carried = self.some_of(self.waiting);
        self.carry(carried);
        if self.rng.chance(self.habits.late / 2) { self.rng.below(17) } else { self.waiting.min(16) }
    }

    fn rx_level(&mut self, held: bool) -> u32 {
        if held {
            return 0;
        }
        if self.rng.chance(8) {
            return self.rng.below(32);
        }
        if matches!(self.kind, Kind::Listen { .. }) {
            let arriving = self.message.min(16);
            self.received = self.received.max(self.some_of(arriving));
        } else {
            let carried = self.some_of(self.waiting);
            self.carry(carried);
        }
        self.some_of(self.received.min(16))
    }

    fn status(&mut self, held: bool) -> u32 {
        if held {
            return 0;
        }
        let slave = !matches!(self.kind, Kind::Master { .. });
        let listening = matches!(self.kind, Kind::Listen { .. });
        let mut status = 0;
        for bit in [TX_EMPTY, RD_REQ, RX_DONE, STOP_DET, GEN_CALL, RESTART_DET] {
            // The master waits for these two; anything else is of no interest to it.
            let chance = if slave { self.habits.status } else { 1024 - self.habits.late };
            if self.rng.chance(chance) {
                status |= bit;
            }
        }
        if listening && self.message == 0 {
            status |= self.habits.ending;
        }
        if slave && !listening && Self::due(&mut self.rng, &mut self.habits.abort_in) {
            status |= TX_ABRT;
        }
        status
    }

    fn data(&mut self) -> u32 {
        self.received = self.received.saturating_sub(1);
        self.message = self.message.saturating_sub(1);
        let first = if self.rng.chance(self.habits.first) { FIRST } else { 0 };
        self.rng.below(256) | first
    }

    fn abort_source(&mut self, held: bool) -> u32 {
        let slave = !matches!(self.kind, Kind::Master { .. });
        let due = if slave { !self.rng.chance(200) } else { Self::due(&mut self.rng, &mut self.habits.abort_in) };
        if !due || held && !slave {
            return 0;
        }
        if self.rng.chance(768) {
            (self.waiting, self.reads, self.received) = (0, 0, 0);
        }
        // A second word right after the first, which must not change the reason.
        if !slave && self.rng.chance(700) {
            self.habits.abort_in = Some(0);
        }
        self.abort_word()
    }

    fn arbitrary(&mut self) -> u32 {
        match self.rng.below(5) {
            0 => 0,
            1 => u32::MAX,
            2 => self.rng.below(32),
            3 => 1 << self.rng.below(32),
            _ => self.rng.word(),
        }
    }

    /// The reading, and the bits that mean something in it.
    fn register(&mut self, offset: u8, held: bool) -> (u32, u32) {
        match offset {
            TXFLR => (self.tx_level(held), 0x1F),
            RXFLR => (self.rx_level(held), 0x1F),
            RAW_INTR_STAT => (self.status(held), 0x1AF0),
            TX_ABRT_SOURCE => (self.abort_source(held), u32::MAX),
            STATUS => (if self.received > 0 && !held { RFNE } else { 0 }, RFNE),
            DATA_CMD => (self.data(), 0x8FF),
            CON => (self.rng.pick(&[0x65, 0, u32::MAX]), 0),
            SDA_HOLD => (1, 0),
            _ => (0, 0),
        }
    }
}

impl Chooser for Sim {
    fn choose(&mut self, offset: u8, log: &[Entry]) -> Option<u32> {
        if self.given == self.habits.budget {
            return None;
        }
        self.given += 1;
        self.observe(log);
        if self.rng.chance(self.habits.wild) {
            return Some(self.arbitrary());
        }
        let (reading, meaning) = self.register(offset, log.len() < self.habits.wait_until);
        let noise = if self.habits.noise { self.rng.word() & !meaning } else { 0 };
        Some(reading ^ noise)
    }
}
