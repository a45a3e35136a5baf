//! One step: interrupt or instruction, then the timer's tick and the move of the
//! replacement index.

use crate::exception::{Fault, NO_EXCEPTION};
use crate::memory::{Memory, Width};
use crate::mmu::{Access, NO_SLOT};
use crate::processor::{Processor, PSW_IC};
use crate::timer;

/// What a step tells: the EID of the exception accepted in it, or 32; the slot
/// of its data access, or 33 if it completed none (document 02, job 2); and the
/// opcode of the instruction that it completed, by which it is charged, if it
/// completed one (document 02, job 3).
#[derive(Clone, Copy, Debug, PartialEq, Eq)]
pub struct Stepped {
    pub eid: u32,
    pub slot: u32,
    pub opcode: Option<u32>,
}

impl Stepped {
    /// A step that accepts an exception has no completed access and no
    /// completed instruction.
    fn accepted(eid: u32) -> Stepped {
        Stepped {
            eid,
            slot: NO_SLOT,
            opcode: None,
        }
    }

    fn completed(opcode: u32, slot: u32) -> Stepped {
        Stepped {
            eid: NO_EXCEPTION,
            slot,
            opcode: Some(opcode),
        }
    }
}

/// Sign-extends the low 16 bits.
fn sign_extend_16(value: u32) -> u32 {
    value as u16 as i16 as u32
}

/// Sign-extends the low 8 bits.
fn sign_extend_8(value: u32) -> u32 {
    value as u8 as i8 as u32
}

/// Sign-extends the low 26 bits.
fn sign_extend_26(value: u32) -> u32 {
    ((value << 6) as i32 >> 6) as u32
}

/// Signed quotient, rounded toward 0. It wraps for 80000000 by FFFFFFFF:
/// document 01, "Closed by us".
fn divide_signed(x: u32, y: u32) -> Result<u32, Fault> {
    if y == 0 {
        return Err(Fault::DivisionByZero);
    }
    Ok((x as i32).wrapping_div(y as i32) as u32)
}

/// Signed remainder with the sign of the dividend: document 01, "Closed by
/// us".
fn remainder_signed(x: u32, y: u32) -> Result<u32, Fault> {
    if y == 0 {
        return Err(Fault::DivisionByZero);
    }
    Ok((x as i32).wrapping_rem(y as i32) as u32)
}

fn divide_unsigned(x: u32, y: u32) -> Result<u32, Fault> {
    x.checked_div(y).ok_or(Fault::DivisionByZero)
}

fn remainder_unsigned(x: u32, y: u32) -> Result<u32, Fault> {
    x.checked_rem(y).ok_or(Fault::DivisionByZero)
}

/// Shift right by `count` mod 32 that copies the sign bit.
fn shift_arithmetic(x: u32, count: u32) -> u32 {
    (x as i32 >> (count & 31)) as u32
}

impl Processor {
    /// Makes one step (document 01, "One step"), the tick after it and the move
    /// of the replacement index (document 02, jobs 1 and 4).
    pub fn step(&mut self, memory: &mut Memory, lines: u16) -> Stepped {
        let stepped = self.effects(memory, lines);
        self.timer.tick();
        self.move_replacement();
        stepped
    }

    /// The effects of the step itself.
    fn effects(&mut self, memory: &mut Memory, lines: u16) -> Stepped {
        if let Some(channel) = self.due_channel(lines) {
            self.accept_interrupt(channel);
            return Stepped::accepted(channel);
        }
        let own_pc = self.pc;
        match self.execute(memory) {
            Ok(stepped) => stepped,
            Err(fault) => {
                self.accept_fault(own_pc, fault);
                Stepped::accepted(fault.eid())
            }
        }
    }

    /// The interrupt channel to accept, the lowest where several are ready
    /// (document 01, "Closed by us"). Channel 14 is the host's line or the
    /// timer's (document 02, job 1).
    fn due_channel(&self, lines: u16) -> Option<u32> {
        let ready = u32::from(lines | self.timer.lines()) & self.psw;
        if self.psw & PSW_IC != 0 && ready != 0 {
            Some(ready.trailing_zeros())
        } else {
            None
        }
    }

    /// Answers the value and the slot that served the access.
    fn load(&self, memory: &Memory, address: u32, width: Width) -> Result<(u32, u32), Fault> {
        let found = self.translate(address, width, Access::Load, self.user_mode())?;
        let value = match timer::register_at(found.physical, width) {
            Some(register) => self.timer.load(register),
            None => memory.load(found.physical, width)?,
        };
        Ok((value, found.slot))
    }

    /// Answers the slot that served the access, also where the store changes
    /// nothing, as in ROM.
    fn store(
        &mut self,
        memory: &mut Memory,
        address: u32,
        width: Width,
        value: u32,
    ) -> Result<u32, Fault> {
        let found = self.translate(address, width, Access::Store, self.user_mode())?;
        match timer::register_at(found.physical, width) {
            Some(register) => self.timer.store(register, value),
            None => memory.store(found.physical, width, value)?,
        }
        Ok(found.slot)
    }

    /// Load and store (manual 3.5.1 to 3.5.8) of a register. Answers the slot.
    fn transfer(
        &mut self,
        memory: &mut Memory,
        opcode: u32,
        address: u32,
        number: u32,
    ) -> Result<u32, Fault> {
        let stored = self.register(number);
        let (value, slot) = match opcode {
            0x30 => self.load(memory, address, Width::Word)?,
            0x31 => {
                let (value, slot) = self.load(memory, address, Width::Half)?;
                (sign_extend_16(value), slot)
            }
            0x32 => self.load(memory, address, Width::Half)?,
            0x33 => {
                let (value, slot) = self.load(memory, address, Width::Byte)?;
                (sign_extend_8(value), slot)
            }
            0x34 => self.load(memory, address, Width::Byte)?,
            0x35 => return self.store(memory, address, Width::Word, stored),
            0x36 => return self.store(memory, address, Width::Half, stored),
            _ => return self.store(memory, address, Width::Byte, stored),
        };
        self.set_register(number, value);
        Ok(slot)
    }

    fn require_kernel_mode(&self) -> Result<(), Fault> {
        if self.user_mode() {
            return Err(Fault::PrivilegedInstruction);
        }
        Ok(())
    }

    /// Adds a word offset to the incremented PC if the condition holds
    /// (manual 3.4).
    fn branch(&mut self, taken: bool, offset: u32) {
        if taken {
            self.pc = self.pc.wrapping_add(offset.wrapping_mul(4));
        }
    }

    /// Fetches and executes one instruction (manual 3.2). On a fault nothing
    /// but the PC has changed, which exception entry overwrites. The slot of
    /// the fetch is not asked for (document 02, job 2).
    fn execute(&mut self, memory: &mut Memory) -> Result<Stepped, Fault> {
        let (word, _) = self.load(memory, self.pc, Width::Word)?;
        self.pc = self.pc.wrapping_add(4);
        let slot = self.perform(memory, word)?;
        Ok(Stepped::completed(word >> 26, slot))
    }

    /// Executes an instruction word, with the PC behind it. Answers the slot
    /// of the data access, or 33.
    fn perform(&mut self, memory: &mut Memory, word: u32) -> Result<u32, Fault> {
        // Fields of both formats: x, then y and r, or r and an immediate.
        let opcode = word >> 26;
        let second = word >> 16 & 31;
        let third = word >> 11 & 31;
        let immediate = word & 0xFFFF;
        let signed = sign_extend_16(immediate);
        let x = self.register(word >> 21 & 31);
        let y = self.register(second);
        let address = x.wrapping_add(signed);
        let (xs, ys) = (x as i32, y as i32);

        match opcode {
            // Computation, manual 3.3.1 to 3.3.31
            0x00 => self.set_register(third, x.wrapping_add(y)),
            0x01 => self.set_register(second, x.wrapping_add(signed)),
            0x02 => self.set_register(third, x.wrapping_sub(y)),
            0x03 => self.set_register(second, x.wrapping_sub(signed)),
            // The low 32 bits of signed and unsigned products are equal.
            0x04 | 0x06 => self.set_register(third, x.wrapping_mul(y)),
            0x05 => self.set_register(second, x.wrapping_mul(signed)),
            0x07 => self.set_register(second, x.wrapping_mul(immediate)),
            // The text of 3.3.10, 3.3.12, 3.3.14 and 3.3.16 takes an
            // immediate, so these have the format of ADDI.
            0x08 => self.set_register(third, divide_signed(x, y)?),
            0x09 => self.set_register(second, divide_signed(x, signed)?),
            0x0A => self.set_register(third, divide_unsigned(x, y)?),
            0x0B => self.set_register(second, divide_unsigned(x, immediate)?),
            0x0C => self.set_register(third, remainder_signed(x, y)?),
            0x0D => self.set_register(second, remainder_signed(x, signed)?),
            0x0E => self.set_register(third, remainder_unsigned(x, y)?),
            0x0F => self.set_register(second, remainder_unsigned(x, immediate)?),
            0x10 => self.set_register(third, x & y),
            0x11 => self.set_register(second, x & immediate),
            0x12 => self.set_register(third, x | y),
            0x13 => self.set_register(second, x | immediate),
            0x14 => self.set_register(third, x ^ y),
            0x15 => self.set_register(second, x ^ immediate),
            0x16 => self.set_register(third, !(x ^ y)),
            0x17 => self.set_register(second, !(x ^ immediate)),
            0x18 => self.set_register(third, x << (y & 31)),
            0x19 => self.set_register(second, x << (immediate & 31)),
            0x1A => self.set_register(third, x >> (y & 31)),
            0x1B => self.set_register(second, x >> (immediate & 31)),
            0x1C => self.set_register(third, shift_arithmetic(x, y)),
            0x1D => self.set_register(second, shift_arithmetic(x, immediate)),
            0x1F => self.set_register(second, immediate << 16),

            // Control flow, manual 3.4.1 to 3.4.14
            0x20 => self.branch(x == y, signed),
            0x21 => self.branch(x != y, signed),
            0x22 => self.branch(xs <= ys, signed),
            0x23 => self.branch(x <= y, signed),
            0x24 => self.branch(xs < ys, signed),
            0x25 => self.branch(x < y, signed),
            0x26 => self.branch(xs >= ys, signed),
            0x27 => self.branch(x >= y, signed),
            0x28 => self.branch(xs > ys, signed),
            0x29 => self.branch(x > y, signed),
            0x2A => self.branch(true, sign_extend_26(word)),
            0x2B => self.pc = x,
            0x2C => {
                self.set_register(31, self.pc);
                self.branch(true, sign_extend_26(word));
            }
            0x2D => {
                // x was read above, before register 31 changes.
                self.set_register(31, self.pc);
                self.pc = x;
            }

            // Load and store, manual 3.5.1 to 3.5.8
            0x30..=0x37 => return self.transfer(memory, opcode, address, second),

            // System, manual 3.6.1 to 3.6.8
            0x2E => return Err(Fault::Trap),
            0x2F => {
                self.require_kernel_mode()?;
                self.return_from_exception();
            }
            0x38 => {
                self.require_kernel_mode()?;
                self.set_register(second, self.special(immediate));
            }
            0x39 => {
                self.require_kernel_mode()?;
                self.set_special(immediate, y);
            }
            0x3A => {
                self.require_kernel_mode()?;
                self.search_tlb();
            }
            0x3B => {
                self.require_kernel_mode()?;
                self.write_tlb_random();
            }
            0x3C => {
                self.require_kernel_mode()?;
                self.read_tlb_indexed();
            }
            0x3D => {
                self.require_kernel_mode()?;
                self.write_tlb_indexed();
            }

            // 1E, 3E and 3F, the rest of the six bits
            _ => return Err(Fault::IllegalInstruction),
        }
        Ok(NO_SLOT)
    }
}
