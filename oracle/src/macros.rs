//! The logging macros of the drivers.

macro_rules! trace {
    ($($argument:tt)*) => {};
}

/// The slave driver warns once, inside `listen`. The private kept byte and settings can be named
/// only in that module, so this is where methods for them join the unchanged source. A second
/// `warn!` there would define them twice and stop the build.
macro_rules! warn {
    ($($argument:tt)*) => {{
        #[allow(non_local_definitions)]
        impl<'d, T: Instance> I2cSlave<'d, T> {
            pub fn has_kept_byte(&self) -> bool {
                self.pending_byte.is_some()
            }
            pub fn state(&self) -> (Option<u8>, u16, bool) {
                (self.pending_byte, self.config.addr, self.config.general_call)
            }
            pub fn set_settings(&mut self, addr: u16, general_call: bool) {
                self.config.addr = addr;
                self.config.general_call = general_call;
            }
        }
    }};
}
