//! Stand-ins for what else the drivers name: chip modules and small outside crates.
//! Only the block reset and the clock have a meaning here; pins, wakers and interrupts do nothing.

use std::marker::PhantomData;
use std::ops::Deref;

pub trait PeripheralType: Copy + Sized {}

pub struct Peri<'a, T: PeripheralType> {
    inner: T,
    lifetime: PhantomData<&'a mut T>,
}

impl<'a, T: PeripheralType> Peri<'a, T> {
    pub fn new(inner: T) -> Self {
        Self { inner, lifetime: PhantomData }
    }

    pub fn into<U: PeripheralType>(self) -> Peri<'a, U>
    where
        T: Into<U>,
    {
        Peri::new(self.inner.into())
    }
}

impl<T: PeripheralType> Deref for Peri<'_, T> {
    type Target = T;

    fn deref(&self) -> &T {
        &self.inner
    }
}

pub trait SetConfig {
    type Config;
    type ConfigError;

    fn set_config(&mut self, config: &Self::Config) -> Result<(), Self::ConfigError>;
}

pub mod waitqueue {
    pub struct AtomicWaker;

    impl AtomicWaker {
        pub const fn new() -> Self {
            Self
        }
        pub fn register(&self, _waker: &std::task::Waker) {}
        pub fn wake(&self) {}
    }
}

#[allow(dead_code)]
pub mod blocking {
    pub mod i2c {
        pub enum Operation<'a> {
            Read(&'a mut [u8]),
            Write(&'a [u8]),
        }

        pub trait Read {
            type Error;
            fn read(&mut self, address: u8, buffer: &mut [u8]) -> Result<(), Self::Error>;
        }

        pub trait Write {
            type Error;
            fn write(&mut self, address: u8, bytes: &[u8]) -> Result<(), Self::Error>;
        }

        pub trait WriteRead {
            type Error;
            fn write_read(&mut self, address: u8, bytes: &[u8], buffer: &mut [u8]) -> Result<(), Self::Error>;
        }

        pub trait Transactional {
            type Error;
            fn exec(&mut self, address: u8, operations: &mut [Operation<'_>]) -> Result<(), Self::Error>;
        }
    }
}

pub mod clocks {
    pub fn clk_peri_freq() -> u32 {
        crate::bus::clock()
    }
}

pub mod reset {
    use crate::pac::resets::regs::Peripherals;

    pub fn reset(_which: Peripherals) {
        crate::bus::mark(crate::bus::Entry::BlockReset);
    }

    pub fn unreset_wait(_which: Peripherals) {}
}

pub mod interrupt {
    pub mod typelevel {
        pub trait Interrupt {
            fn unpend() {}
            /// # Safety
            /// As in the original; here it does nothing.
            unsafe fn enable() {}
        }

        #[allow(dead_code)]
        pub trait Handler<I: Interrupt> {
            /// # Safety
            /// As in the original; never called here.
            unsafe fn on_interrupt();
        }

        /// # Safety
        /// As in the original; no interrupt occurs here.
        pub unsafe trait Binding<I: Interrupt, H: Handler<I>> {}

        #[allow(non_camel_case_types)]
        pub struct I2C0_IRQ;
        #[allow(non_camel_case_types)]
        pub struct I2C1_IRQ;

        impl Interrupt for I2C0_IRQ {}
        impl Interrupt for I2C1_IRQ {}
    }
}

pub mod gpio {
    use super::PeripheralType;

    /// A pin register whose accesses go nowhere.
    pub struct PinReg;
    pub struct PinFields;
    pub struct PinBlock;

    impl PinBlock {
        pub fn ctrl(&self) -> PinReg {
            PinReg
        }
    }

    impl PinReg {
        pub fn write<R>(&self, set: impl FnOnce(&mut PinFields) -> R) -> R {
            set(&mut PinFields)
        }
    }

    impl PinFields {
        pub fn set_funcsel(&mut self, _function: u8) {}
        pub fn set_schmitt(&mut self, _on: bool) {}
        pub fn set_slewfast(&mut self, _on: bool) {}
        pub fn set_ie(&mut self, _on: bool) {}
        pub fn set_od(&mut self, _on: bool) {}
        pub fn set_pue(&mut self, _on: bool) {}
        pub fn set_pde(&mut self, _on: bool) {}
    }

    pub trait Pin: PeripheralType + Into<AnyPin> + 'static {
        fn gpio(&self) -> PinBlock {
            PinBlock
        }
        fn pad_ctrl(&self) -> PinReg {
            PinReg
        }
    }

    #[derive(Clone, Copy)]
    pub struct AnyPin;

    impl PeripheralType for AnyPin {}
    impl Pin for AnyPin {}
}

pub mod peripherals {
    use super::PeripheralType;
    use super::gpio::{AnyPin, Pin};

    macro_rules! instances {
        ($($name:ident)*) => {
            $(
                #[derive(Clone, Copy)]
                pub struct $name;
                impl PeripheralType for $name {}
            )*
        };
    }

    macro_rules! pins {
        ($($name:ident)*) => {
            $(
                #[allow(non_camel_case_types)]
                #[derive(Clone, Copy)]
                pub struct $name;
                impl PeripheralType for $name {}
                impl Pin for $name {}
                impl From<$name> for AnyPin {
                    fn from(_pin: $name) -> Self {
                        AnyPin
                    }
                }
            )*
        };
    }

    instances! { I2C0 I2C1 }
    pins! {
        PIN_0 PIN_1 PIN_2 PIN_3 PIN_4 PIN_5 PIN_6 PIN_7 PIN_8 PIN_9
        PIN_10 PIN_11 PIN_12 PIN_13 PIN_14 PIN_15 PIN_16 PIN_17 PIN_18 PIN_19
        PIN_20 PIN_21 PIN_22 PIN_23 PIN_24 PIN_25 PIN_26 PIN_27 PIN_28 PIN_29
    }
}
