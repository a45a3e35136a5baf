//! Exceptions: identifiers, entry and return.

use crate::processor::{Processor, PSW_EID_SHIFT, PSW_V};

/// Answered in place of an EID where no exception was accepted.
pub const NO_EXCEPTION: u32 = 32;

/// Base of the service routines with V clear, and with V set (manual 2.8.2).
pub const ROM_SERVICE_BASE: u32 = 0xE000_0000;
pub const RAM_SERVICE_BASE: u32 = 0xC000_0000;

/// A fault, with the virtual address where Bad Address records one.
#[derive(Clone, Copy, Debug, PartialEq, Eq)]
pub enum Fault {
    BusTimeout,
    IllegalInstruction,
    PrivilegedInstruction,
    DivisionByZero,
    Trap,
    TlbMiss(u32),
    TlbWrite(u32),
    TlbInvalid(u32),
    IllegalAddress(u32),
    PrivilegedAddress(u32),
}

impl Fault {
    /// Exception identifier (manual 2.7.4).
    pub fn eid(self) -> u32 {
        match self {
            Fault::BusTimeout => 16,
            Fault::IllegalInstruction => 17,
            Fault::PrivilegedInstruction => 18,
            Fault::DivisionByZero => 19,
            Fault::Trap => 20,
            Fault::TlbMiss(_) => 21,
            Fault::TlbWrite(_) => 22,
            Fault::TlbInvalid(_) => 23,
            Fault::IllegalAddress(_) => 24,
            Fault::PrivilegedAddress(_) => 25,
        }
    }
}

/// Pushes 0 on a three-level stack held as current, previous, old in bits 2,
/// 1, 0 (manual 2.7.2 and 2.7.3).
fn pushed(stack: u32) -> u32 {
    stack >> 1
}

/// Pops such a stack; the old level keeps its value (manual 2.7.2 and 2.7.3).
fn popped(stack: u32) -> u32 {
    (stack << 1 & 0b110) | (stack & 0b001)
}

impl Processor {
    /// Applies one operation to the mode stack (PSW 26..24) and the interrupt
    /// enable stack (PSW 23..21).
    fn change_stacks(&mut self, operation: fn(u32) -> u32) {
        let mode = operation(self.psw >> 24 & 7);
        let enable = operation(self.psw >> 21 & 7);
        self.psw = (self.psw & !(0o77 << 21)) | mode << 24 | enable << 21;
    }

    /// Exception entry (manual 2.8.1 and 2.8.2).
    fn enter(&mut self, return_address: u32, eid: u32, vector: u32) {
        let base = if self.psw & PSW_V == 0 {
            ROM_SERVICE_BASE
        } else {
            RAM_SERVICE_BASE
        };
        self.set_register(30, return_address);
        self.change_stacks(pushed);
        self.psw = (self.psw & !(31 << PSW_EID_SHIFT)) | eid << PSW_EID_SHIFT;
        self.pc = base + vector;
    }

    /// Accepts an interrupt between two instructions: the PC still names the
    /// next one.
    pub fn accept_interrupt(&mut self, channel: u32) {
        self.enter(self.pc, channel, 4);
    }

    /// Accepts a fault of the instruction at `own_pc`. The vector is 8 for a
    /// miss in user space, in either mode (document 01, "One step").
    pub fn accept_fault(&mut self, own_pc: u32, fault: Fault) {
        match fault {
            Fault::TlbMiss(address) | Fault::TlbWrite(address) | Fault::TlbInvalid(address) => {
                self.bad_address = address;
                self.entry_high = address & 0xFFFF_F000;
            }
            Fault::IllegalAddress(address) | Fault::PrivilegedAddress(address) => {
                self.bad_address = address;
            }
            Fault::BusTimeout
            | Fault::IllegalInstruction
            | Fault::PrivilegedInstruction
            | Fault::DivisionByZero
            | Fault::Trap => {}
        }
        let vector = match fault {
            Fault::TlbMiss(address) if address < 0x8000_0000 => 8,
            _ => 4,
        };
        self.enter(own_pc, fault.eid(), vector);
    }

    /// Effect of RFX (manual 2.8.3).
    pub fn return_from_exception(&mut self) {
        self.pc = self.register(30);
        self.change_stacks(popped);
    }
}
