//! The names of embedded-hal-async 1.0 that the drivers use, in its shapes.
pub mod i2c {
    pub use embedded_hal_1::i2c::{AddressMode, ErrorType, Operation};

    #[allow(async_fn_in_trait)]
    pub trait I2c<A: AddressMode>: ErrorType {
        async fn read(&mut self, address: A, read: &mut [u8]) -> Result<(), Self::Error>;
        async fn write(&mut self, address: A, write: &[u8]) -> Result<(), Self::Error>;
        async fn write_read(&mut self, address: A, write: &[u8], read: &mut [u8]) -> Result<(), Self::Error>;
        async fn transaction(&mut self, address: A, operations: &mut [Operation<'_>]) -> Result<(), Self::Error>;
    }
}
