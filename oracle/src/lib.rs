//! The original Rust drivers over a stand-in for the registers.

// The drivers name outside crates; these names lead to the stand-ins below.
extern crate self as embassy_embedded_hal;
extern crate self as embassy_hal_internal;
extern crate self as embassy_sync;
extern crate self as embedded_hal_02;

#[macro_use]
mod macros;

pub mod bus;
pub mod call;
mod chip;
mod coded;
pub mod damage;
pub mod drivers;
mod frames;
mod hex;
mod offsets;
mod pac;
pub mod random;
pub mod replay;
pub mod unacknowledged;
pub mod vectors;

// `i2c` and `i2c_slave`, by path.
include!(concat!(env!("OUT_DIR"), "/drivers.rs"));

use chip::{Peri, PeripheralType, SetConfig, blocking, clocks, gpio, interrupt, peripherals, reset, waitqueue};
