//! Stand-in for the register accessors of the peripheral access crate.
//!
//! `write` starts from 0, `modify` is one read and one write of that reading with fields set,
//! and a setter cuts its value to the field's width.

use std::marker::PhantomData;

use crate::bus;

/// A register's value as the drivers see it.
pub trait Value: Copy + Default {
    fn of(bits: u32) -> Self;
    fn bits(self) -> u32;
    /// Looks at a value just read.
    fn checked(self) -> Self {
        self
    }
}

pub struct Reg<V> {
    offset: u8,
    value: PhantomData<V>,
}

impl<V: Value> Reg<V> {
    pub fn read(self) -> V {
        V::of(bus::read(self.offset)).checked()
    }

    pub fn write_value(self, value: V) {
        bus::write(self.offset, value.bits());
    }

    pub fn write<R>(self, set: impl FnOnce(&mut V) -> R) -> R {
        let mut value = V::default();
        let result = set(&mut value);
        self.write_value(value);
        result
    }

    pub fn modify<R>(self, set: impl FnOnce(&mut V) -> R) -> R {
        let mut value = V::of(bus::read(self.offset));
        let result = set(&mut value);
        self.write_value(value);
        result
    }
}

fn cut(bits: u32, low: u32, width: u32) -> u32 {
    (bits >> low) & ((1 << width) - 1)
}

fn with(bits: u32, low: u32, width: u32, field: u32) -> u32 {
    let mask = ((1 << width) - 1) << low;
    (bits & !mask) | ((field << low) & mask)
}

/// A register: its flags (one bit) and its fields (type, lowest bit, width).
macro_rules! register {
    ($name:ident
        flags { $($flag:ident $set_flag:ident $bit:literal),* }
        fields { $($field:ident $set_field:ident $type:ident $low:literal $width:literal),* }
    ) => {
        #[derive(Clone, Copy, Default)]
        pub struct $name(pub u32);

        #[allow(dead_code)]
        impl $name {
            $(
                pub fn $flag(&self) -> bool {
                    cut(self.0, $bit, 1) == 1
                }
                pub fn $set_flag(&mut self, on: bool) {
                    self.0 = with(self.0, $bit, 1, on as u32);
                }
            )*
            $(
                pub fn $field(&self) -> $type {
                    cut(self.0, $low, $width) as $type
                }
                pub fn $set_field(&mut self, field: $type) {
                    self.0 = with(self.0, $low, $width, field as u32);
                }
            )*
        }
    };
}

macro_rules! values {
    ($($name:ident)*) => {
        $(impl Value for $name {
            fn of(bits: u32) -> Self {
                Self(bits)
            }
            fn bits(self) -> u32 {
                self.0
            }
        })*
    };
}

/// The block's accessors: method, register, offset.
macro_rules! block {
    ($($method:ident $register:ident $offset:literal)*) => {
        #[derive(Clone, Copy)]
        pub struct I2c;

        impl I2c {
            $(pub fn $method(self) -> Reg<regs::$register> {
                Reg { offset: $offset, value: PhantomData }
            })*
        }
    };
}

pub const I2C0: i2c::I2c = i2c::I2c;
pub const I2C1: i2c::I2c = i2c::I2c;

pub mod i2c {
    use super::*;

    block! {
        ic_con IcCon 0x00
        ic_tar IcTar 0x04
        ic_sar IcSar 0x08
        ic_data_cmd IcDataCmd 0x10
        ic_fs_scl_hcnt IcFsSclHcnt 0x1C
        ic_fs_scl_lcnt IcFsSclLcnt 0x20
        ic_intr_mask IcIntrMask 0x30
        ic_raw_intr_stat IcRawIntrStat 0x34
        ic_rx_tl IcRxTl 0x38
        ic_tx_tl IcTxTl 0x3C
        ic_clr_intr IcClr 0x40
        ic_clr_rd_req IcClr 0x50
        ic_clr_tx_abrt IcClr 0x54
        ic_clr_rx_done IcClr 0x58
        ic_clr_stop_det IcClr 0x60
        ic_clr_gen_call IcClr 0x68
        ic_enable IcEnable 0x6C
        ic_status IcStatus 0x70
        ic_txflr IcTxflr 0x74
        ic_rxflr IcRxflr 0x78
        ic_sda_hold IcSdaHold 0x7C
        ic_tx_abrt_source IcTxAbrtSource 0x80
        ic_ack_general_call IcAckGeneralCall 0x98
        ic_fs_spklen IcFsSpklen 0xA0
        ic_clr_restart_det IcClr 0xA8
    }

    pub mod vals {
        #[allow(clippy::upper_case_acronyms)]
        #[derive(Clone, Copy)]
        pub enum Speed {
            FAST = 2,
        }
    }

    pub mod regs {
        use super::*;

        register! { IcCon
            flags {
                master_mode set_master_mode 0, ic_slave_disable set_ic_slave_disable 6,
                stop_det_ifaddressed set_stop_det_ifaddressed 7,
                tx_empty_ctrl set_tx_empty_ctrl 8,
                rx_fifo_full_hld_ctrl set_rx_fifo_full_hld_ctrl 9
            }
            fields {}
        }
        register! { IcTar flags {} fields { ic_tar set_ic_tar u16 0 10 } }
        register! { IcSar flags {} fields { ic_sar set_ic_sar u16 0 10 } }
        register! { IcDataCmd
            flags { cmd set_cmd 8, stop set_stop 9, restart set_restart 10, first_data_byte set_first_data_byte 11 }
            fields { dat set_dat u8 0 8 }
        }
        register! { IcFsSclHcnt flags {} fields { ic_fs_scl_hcnt set_ic_fs_scl_hcnt u16 0 16 } }
        register! { IcFsSclLcnt flags {} fields { ic_fs_scl_lcnt set_ic_fs_scl_lcnt u16 0 16 } }
        register! { IcIntrMask
            flags {
                m_rx_full set_m_rx_full 2, m_tx_empty set_m_tx_empty 4, m_rd_req set_m_rd_req 5,
                m_tx_abrt set_m_tx_abrt 6, m_rx_done set_m_rx_done 7, m_stop_det set_m_stop_det 9,
                m_gen_call set_m_gen_call 11, m_restart_det set_m_restart_det 12
            }
            fields {}
        }
        register! { IcRawIntrStat
            flags {
                tx_empty set_tx_empty 4, rd_req set_rd_req 5, tx_abrt set_tx_abrt 6, rx_done set_rx_done 7,
                stop_det set_stop_det 9, gen_call set_gen_call 11, restart_det set_restart_det 12
            }
            fields {}
        }
        register! { IcRxTl flags {} fields { rx_tl set_rx_tl u8 0 8 } }
        register! { IcTxTl flags {} fields { tx_tl set_tx_tl u8 0 8 } }
        register! { IcClr flags { clr_stop_det set_clr_stop_det 0 } fields {} }
        register! { IcEnable flags { enable set_enable 0 } fields {} }
        register! { IcStatus flags { rfne set_rfne 3 } fields {} }
        register! { IcTxflr flags {} fields { txflr set_txflr u8 0 5 } }
        register! { IcRxflr flags {} fields { rxflr set_rxflr u8 0 5 } }
        register! { IcSdaHold flags {} fields { ic_sda_tx_hold set_ic_sda_tx_hold u16 0 16 } }
        register! { IcTxAbrtSource
            flags {
                abrt_7b_addr_noack set_abrt_7b_addr_noack 0, abrt_10addr1_noack set_abrt_10addr1_noack 1,
                abrt_10addr2_noack set_abrt_10addr2_noack 2, arb_lost set_arb_lost 12
            }
            fields { tx_flush_cnt set_tx_flush_cnt u16 23 9 }
        }
        register! { IcAckGeneralCall flags { ack_gen_call set_ack_gen_call 0 } fields {} }
        register! { IcFsSpklen flags {} fields { ic_fs_spklen set_ic_fs_spklen u8 0 8 } }

        values! {
            IcCon IcTar IcSar IcDataCmd IcFsSclHcnt IcFsSclLcnt IcIntrMask IcRawIntrStat IcRxTl IcTxTl IcClr
            IcEnable IcStatus IcRxflr IcSdaHold IcTxAbrtSource IcAckGeneralCall IcFsSpklen
        }

        impl IcCon {
            pub fn set_speed(&mut self, speed: super::vals::Speed) {
                self.0 = with(self.0, 1, 2, speed as u32);
            }
        }

        impl Value for IcTxflr {
            fn of(bits: u32) -> Self {
                Self(bits)
            }
            fn bits(self) -> u32 {
                self.0
            }
            /// A level above the FIFO's 16 places would wrap the driver's subtraction: refused here.
            fn checked(self) -> Self {
                if self.txflr() > 16 {
                    bus::end(bus::Ended::LevelTooHigh(self.txflr() as u32));
                }
                self
            }
        }
    }
}

pub mod resets {
    pub mod regs {
        #[derive(Clone, Copy, Default)]
        pub struct Peripherals;

        impl Peripherals {
            pub fn set_i2c0(&mut self, _on: bool) {}
            pub fn set_i2c1(&mut self, _on: bool) {}
        }
    }
}
