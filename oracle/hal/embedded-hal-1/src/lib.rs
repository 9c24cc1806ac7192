//! The names of embedded-hal 1.0 that the drivers use, in its shapes.
pub mod i2c {
    #[derive(Clone, Copy, Debug, PartialEq, Eq)]
    pub enum NoAcknowledgeSource {
        Address,
    }

    #[derive(Clone, Copy, Debug, PartialEq, Eq)]
    pub enum ErrorKind {
        ArbitrationLoss,
        NoAcknowledge(NoAcknowledgeSource),
        Other,
    }

    pub trait Error: core::fmt::Debug {
        fn kind(&self) -> ErrorKind;
    }

    pub trait ErrorType {
        type Error: Error;
    }

    pub enum Operation<'a> {
        Read(&'a mut [u8]),
        Write(&'a [u8]),
    }

    pub trait AddressMode {}
    impl AddressMode for u8 {}
    impl AddressMode for u16 {}

    pub trait I2c: ErrorType {
        fn read(&mut self, address: u8, read: &mut [u8]) -> Result<(), Self::Error>;
        fn write(&mut self, address: u8, write: &[u8]) -> Result<(), Self::Error>;
        fn write_read(&mut self, address: u8, write: &[u8], read: &mut [u8]) -> Result<(), Self::Error>;
        fn transaction(&mut self, address: u8, operations: &mut [Operation<'_>]) -> Result<(), Self::Error>;
    }
}
