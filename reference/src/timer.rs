//! The board timer behind interrupt channel 14 (manual 5.4; document 02, job
//! 1).

use crate::memory::Width;

/// Physical addresses of the two registers (manual 5.4).
pub const CONTROL_ADDRESS: u32 = 0x3000_0000;
pub const DIVISOR_ADDRESS: u32 = 0x3000_0004;

/// Bits of the control register (manual 5.4).
pub const WRAP: u8 = 1 << 0;
pub const ENABLE: u8 = 1 << 1;
/// What a store to the control register keeps: document 02, job 1.
pub const KEPT_CONTROL: u8 = WRAP | ENABLE;

/// Line of channel 14 (manual 5.2).
pub const LINE: u16 = 1 << 14;

/// The registers that the manual names. The counter is none of them.
#[derive(Clone, Copy, Debug, PartialEq, Eq)]
pub enum Register {
    Control,
    Divisor,
}

/// The register that answers an access. Narrower accesses and all other words
/// time out: document 02, job 1.
pub fn register_at(address: u32, width: Width) -> Option<Register> {
    match (address, width) {
        (CONTROL_ADDRESS, Width::Word) => Some(Register::Control),
        (DIVISOR_ADDRESS, Width::Word) => Some(Register::Divisor),
        _ => None,
    }
}

/// All 0 at reset.
#[derive(Clone, Copy, Debug, Default, PartialEq, Eq)]
pub struct Timer {
    pub divisor: u32,
    pub counter: u32,
    pub control: u8,
}

impl Timer {
    /// Whether the control is one that the record may hold (document 02, job
    /// 1: 0 to 3, else refusal 6).
    pub fn fit(&self) -> bool {
        self.control <= KEPT_CONTROL
    }

    /// A load leaves the wrap flag as it is.
    pub fn load(&self, register: Register) -> u32 {
        match register {
            Register::Control => u32::from(self.control),
            Register::Divisor => self.divisor,
        }
    }

    /// A store may set the wrap flag as well as clear it. One to the divisor
    /// loads the counter: document 02, job 1.
    pub fn store(&mut self, register: Register, value: u32) {
        match register {
            Register::Control => self.control = value as u8 & KEPT_CONTROL,
            Register::Divisor => {
                self.divisor = value;
                self.counter = value;
            }
        }
    }

    /// One tick, made after each step (document 02, job 1).
    pub fn tick(&mut self) {
        if self.divisor == 0 {
            return;
        }
        if self.counter <= 1 {
            self.counter = self.divisor;
            self.control |= WRAP;
        } else {
            self.counter -= 1;
        }
    }

    /// The timer's share of the interrupt lines: flag and enable.
    pub fn lines(&self) -> u16 {
        if self.control & KEPT_CONTROL == KEPT_CONTROL {
            LINE
        } else {
            0
        }
    }
}
