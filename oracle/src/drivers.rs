//! Runs a call on the original drivers and turns what they return into numbers.

use std::future::Future;
use std::pin::pin;
use std::task::{Context, Poll, Waker};

use embassy_embedded_hal::SetConfig;
use embedded_hal_1::i2c::Operation as HalOperation;

use crate::bus::{self, Chooser, Ended};
use crate::call::{Answer, Call, Kind, Operation};
use crate::chip::Peri;
use crate::chip::interrupt::typelevel::{Binding, I2C0_IRQ, I2C1_IRQ};
use crate::chip::peripherals::{I2C0, I2C1, PIN_0, PIN_1, PIN_2, PIN_3};
use crate::coded::{self, Instead};
use crate::i2c::{self, AbortReason, Async, Blocking, I2c, InterruptHandler};
use crate::i2c_slave::{self, Command, I2cSlave, ReadStatus};
use crate::unacknowledged;

const LARGEST_CLOCK: u32 = 1_431_655_765;
/// Any clock at which the default settings are accepted.
const CLOCK_OF_CONSTRUCTION: u32 = 125_000_000;

struct Irqs;
unsafe impl Binding<I2C0_IRQ, InterruptHandler<I2C0>> for Irqs {}
unsafe impl Binding<I2C1_IRQ, InterruptHandler<I2C1>> for Irqs {}

pub struct Drivers {
    blocking: I2c<'static, I2C0, Blocking>,
    queued: I2c<'static, I2C0, Async>,
    slave: I2cSlave<'static, I2C1>,
    /// The read or listen buffer of the latest call.
    pub buffer: Vec<u8>,
}

/// Polls to the end; a poll that is not done makes one mark.
fn poll_to_end<F: Future>(future: F) -> F::Output {
    let mut future = pin!(future);
    let mut context = Context::from_waker(Waker::noop());
    loop {
        match future.as_mut().poll(&mut context) {
            Poll::Ready(output) => return output,
            Poll::Pending => bus::mark(bus::Entry::Pending),
        }
    }
}

impl Drivers {
    /// The constructors' own accesses are not part of any call and leave nothing in a log.
    pub fn new() -> Self {
        bus::set_clock(CLOCK_OF_CONSTRUCTION);
        let (scl, sda) = (Peri::new(PIN_1), Peri::new(PIN_0));
        let blocking = I2c::new_blocking(Peri::new(I2C0), scl, sda, i2c::Config::default());
        let (scl, sda) = (Peri::new(PIN_1), Peri::new(PIN_0));
        let queued = I2c::new_async(Peri::new(I2C0), scl, sda, Irqs, i2c::Config::default());
        let (scl, sda) = (Peri::new(PIN_3), Peri::new(PIN_2));
        let slave = I2cSlave::new(Peri::new(I2C1), scl, sda, Irqs, i2c_slave::Config::default());
        Drivers { blocking, queued, slave, buffer: Vec::new() }
    }

    /// Runs the call over its readings, then over those of `chooser`. The limits are those of the data alone.
    pub fn run(&mut self, call: &Call, chooser: Option<Box<dyn Chooser>>) -> Answer {
        if call.is_beyond_limits() {
            self.buffer.clear();
            return self.ended(call, chooser, |_| Answer::refused(20));
        }
        match coded::instead(call) {
            None => self.run_within(call, chooser),
            Some(Instead::Plain(plain)) => self.run_within(&plain, chooser),
            Some(Instead::EmptyWrite(plain)) => match self.run_within(&plain, chooser) {
                Answer { number: 7, .. } => Answer::refused(8),
                answer => answer,
            },
            Some(Instead::Longer(longer)) => self.run_longer(call, longer, chooser),
        }
    }

    /// The code that is sent is known only after the bytes before it were read: so there are two runs, the second with it.
    fn run_longer(&mut self, call: &Call, mut longer: Call, chooser: Option<Box<dyn Chooser>>) -> Answer {
        let answer = self.run_within(&longer, chooser);
        if let Some(Operation::Write(_)) = call.operations.last() {
            longer.bytes.pop();
            longer.bytes.push(coded::code(call, &self.buffer));
            longer.readings = bus::with_record(|_, readings| readings.to_vec());
            return self.run_within(&longer, None);
        }
        let came = self.buffer.pop();
        if answer == Answer::ACCEPTED && came != Some(coded::code(call, &self.buffer)) {
            return Answer::refused(22);
        }
        answer
    }

    fn run_within(&mut self, call: &Call, chooser: Option<Box<dyn Chooser>>) -> Answer {
        self.buffer.clear();
        self.buffer.resize(call.read_length(), 0);
        self.ended(call, chooser, |drivers| drivers.answer(call))
    }

    fn ended(
        &mut self,
        call: &Call,
        chooser: Option<Box<dyn Chooser>>,
        run: impl FnOnce(&mut Self) -> Answer,
    ) -> Answer {
        let ended = bus::run(&call.readings, chooser, || run(self));
        ended.unwrap_or_else(|ended| match ended {
            Ended::ReadingsUsedUp => Answer::refused(18),
            Ended::LogFull => Answer::refused(19),
            Ended::LevelTooHigh(level) => Answer::with(12, level),
        })
    }

    /// The slave's kept byte, address and general call.
    pub fn slave_state(&self) -> (Option<u8>, u16, bool) {
        self.slave.state()
    }

    fn answer(&mut self, call: &Call) -> Answer {
        match call.kind {
            Kind::Clock { frequency, clock } => self.set_config(frequency, clock),
            Kind::Master { form, address } if form < 4 => self.transfer_blocking(form, address, call),
            Kind::Master { form, address } => self.transfer_async(form, address, call),
            Kind::Reset { address, general_call } => self.reset(address, general_call),
            Kind::Listen { .. } => self.listen(),
            Kind::Respond => response(poll_to_end(self.slave.respond_to_read(&call.bytes))),
            Kind::Fill { fill } => match poll_to_end(self.slave.respond_till_stop(fill)) {
                Ok(()) => Answer::ACCEPTED,
                Err(error) => slave_refusal(error),
            },
            Kind::RespondAndFill { fill } => response(poll_to_end(self.slave.respond_and_fill(&call.bytes, fill))),
        }
    }

    /// The added numbers 2 and 3 stand before the division and the products that would go wrong.
    fn set_config(&mut self, frequency: u32, clock: u32) -> Answer {
        if frequency == 0 {
            return Answer::refused(2);
        }
        if frequency <= 1_000_000 && clock > LARGEST_CLOCK {
            return Answer::refused(3);
        }
        bus::set_clock(clock);
        let config = i2c::Config { frequency, ..Default::default() };
        match self.blocking.set_config(&config) {
            Ok(()) => Answer::ACCEPTED,
            Err(i2c::ConfigError::FrequencyTooHigh) => Answer::refused(1),
            Err(i2c::ConfigError::ClockTooFast) => Answer::refused(4),
            Err(i2c::ConfigError::ClockTooSlow) => Answer::refused(5),
        }
    }

    fn transfer_blocking(&mut self, form: u8, address: u16, call: &Call) -> Answer {
        let (driver, bytes, buffer) = (&mut self.blocking, &call.bytes[..], &mut self.buffer[..]);
        transferred(match form {
            0 => driver.blocking_read(address, buffer),
            1 => driver.blocking_write(address, bytes),
            2 => driver.blocking_write_read(address, bytes, buffer),
            _ => match u8::try_from(address) {
                Ok(short) => {
                    let mut operations = lend(&call.operations, bytes, buffer);
                    embedded_hal_1::i2c::I2c::transaction(driver, short, &mut operations)
                }
                // The 8-bit address is widened: `setup`, which comes first, decides about the rest.
                Err(_) => driver.blocking_read(address, &mut []),
            },
        })
    }

    fn transfer_async(&mut self, form: u8, address: u16, call: &Call) -> Answer {
        let (driver, bytes, buffer) = (&mut self.queued, &call.bytes[..], &mut self.buffer[..]);
        transferred(match form {
            4 => poll_to_end(driver.read_async(address, buffer)),
            5 => poll_to_end(driver.write_async(address, bytes.iter().copied())),
            6 => poll_to_end(driver.write_read_async(address, bytes.iter().copied(), buffer)),
            _ => {
                let mut operations = lend(&call.operations, bytes, buffer);
                poll_to_end(embedded_hal_async::i2c::I2c::transaction(driver, address, &mut operations))
            }
        })
    }

    /// The settings change with the block reset mark, which always has room: it is a log's first entry.
    fn reset(&mut self, address: u16, general_call: bool) -> Answer {
        if address == 0 {
            return Answer::refused(16);
        }
        self.slave.set_settings(address, general_call);
        self.slave.reset();
        Answer::ACCEPTED
    }

    fn listen(&mut self) -> Answer {
        if self.buffer.is_empty() && self.slave.has_kept_byte() {
            return Answer::refused(17);
        }
        match poll_to_end(self.slave.listen(&mut self.buffer)) {
            Ok(Command::GeneralCall(count)) => Answer::counted(1, count),
            Ok(Command::Read) => Answer::counted(2, 0),
            Ok(Command::WriteRead(count)) => Answer::counted(3, count),
            Ok(Command::Write(count)) => Answer::counted(4, count),
            Err(error) => slave_refusal(error),
        }
    }
}

/// The operations as the HAL's transaction takes them, from the bytes and the buffer end to end.
fn lend<'a>(operations: &[Operation], mut bytes: &'a [u8], mut buffer: &'a mut [u8]) -> Vec<HalOperation<'a>> {
    let mut lent = Vec::with_capacity(operations.len());
    for operation in operations {
        lent.push(match *operation {
            Operation::Write(length) => {
                let (part, rest) = bytes.split_at(length);
                bytes = rest;
                HalOperation::Write(part)
            }
            Operation::Read(length) => {
                let (part, rest) = buffer.split_at_mut(length);
                buffer = rest;
                HalOperation::Read(part)
            }
        });
    }
    lent
}

/// The answer to a master's call whose accesses are in the log.
fn transferred(result: Result<(), i2c::Error>) -> Answer {
    match result {
        Ok(()) => Answer::ACCEPTED,
        Err(i2c::Error::AddressOutOfRange(address)) => Answer::with(6, address as u32),
        Err(i2c::Error::InvalidReadBufferLength) => Answer::refused(7),
        Err(i2c::Error::InvalidWriteBufferLength) => Answer::refused(8),
        Err(i2c::Error::Abort(reason)) => {
            bus::with_record(|log, _| unacknowledged::expected_of_master(aborted(reason), log))
        }
        Err(other) => unreachable!("the driver never returns {other:?}"),
    }
}

/// The original's reason, of the master and of the slave.
fn aborted(reason: AbortReason) -> Answer {
    match reason {
        AbortReason::NoAcknowledge => Answer::refused(9),
        AbortReason::ArbitrationLoss => Answer::refused(10),
        AbortReason::Other(word) => Answer::with(11, word),
        AbortReason::TxNotEmpty(_) => unreachable!("the slave turns it into LeftoverBytes"),
    }
}

fn response(result: Result<ReadStatus, i2c_slave::Error>) -> Answer {
    match result {
        Ok(ReadStatus::Done) => Answer::counted(1, 0),
        Ok(ReadStatus::NeedMoreBytes) => Answer::counted(2, 0),
        Ok(ReadStatus::LeftoverBytes(count)) => Answer::counted(3, count as usize),
        Err(error) => slave_refusal(error),
    }
}

fn slave_refusal(error: i2c_slave::Error) -> Answer {
    match error {
        i2c_slave::Error::Abort(reason) => aborted(reason),
        i2c_slave::Error::InvalidResponseBufferLength => Answer::refused(13),
        i2c_slave::Error::PartialWrite(length) => Answer::with(14, length as u32),
        i2c_slave::Error::PartialGeneralCall(length) => Answer::with(15, length as u32),
    }
}
