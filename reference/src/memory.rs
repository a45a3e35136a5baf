//! Physical memory: RAM, ROM and belt registers behind the bus. The timer is
//! asked before them (step.rs): it is part of the machine, and not lent.

use crate::exception::Fault;

pub const RAM_BASE: u32 = 0x0000_0000;
pub const ROM_BASE: u32 = 0x2000_0000;
pub const BELT_BASE: u32 = 0x3050_0000;

/// Size of one transfer.
#[derive(Clone, Copy, Debug, PartialEq, Eq)]
pub enum Width {
    Byte,
    Half,
    Word,
}

impl Width {
    pub fn bytes(self) -> usize {
        match self {
            Width::Byte => 1,
            Width::Half => 2,
            Width::Word => 4,
        }
    }
}

/// The memory that the host lends for one call.
pub struct Memory<'a> {
    pub ram: &'a mut [u8],
    pub rom: &'a [u8],
    pub belt: &'a mut [u8],
}

/// What answers a bus request, with the offset from its base.
enum Slave {
    Ram(usize),
    Rom(usize),
    Belt(usize),
}

/// Offset of an access in a region, if the whole access lies inside it.
fn offset_in(base: u32, length: usize, address: u32, bytes: usize) -> Option<usize> {
    let offset = address.checked_sub(base)? as usize;
    if bytes <= length && offset <= length - bytes {
        Some(offset)
    } else {
        None
    }
}

/// Assembles bytes to a number, big-endian (manual 2.2).
fn big_endian(bytes: &[u8]) -> u32 {
    bytes
        .iter()
        .fold(0, |value, &byte| value << 8 | u32::from(byte))
}

/// Puts the low bytes of a value in place, big-endian (manual 2.2).
fn put_big_endian(bytes: &mut [u8], value: u32) {
    let mut rest = value;
    for byte in bytes.iter_mut().rev() {
        *byte = rest as u8;
        rest >>= 8;
    }
}

impl Memory<'_> {
    /// The slave that answers an access. Belt registers answer to words only:
    /// document 01, "Closed by us". The regions cannot overlap at the lengths
    /// that a run accepts; at others the lower base answers.
    fn slave(&self, address: u32, width: Width) -> Option<Slave> {
        let bytes = width.bytes();
        if let Some(offset) = offset_in(RAM_BASE, self.ram.len(), address, bytes) {
            return Some(Slave::Ram(offset));
        }
        if let Some(offset) = offset_in(ROM_BASE, self.rom.len(), address, bytes) {
            return Some(Slave::Rom(offset));
        }
        match width {
            Width::Word => offset_in(BELT_BASE, self.belt.len(), address, bytes).map(Slave::Belt),
            Width::Byte | Width::Half => None,
        }
    }

    /// Loads from a physical address, zero-extended (manual 3.5).
    pub fn load(&self, address: u32, width: Width) -> Result<u32, Fault> {
        let n = width.bytes();
        match self.slave(address, width) {
            Some(Slave::Ram(at)) => Ok(big_endian(&self.ram[at..at + n])),
            Some(Slave::Rom(at)) => Ok(big_endian(&self.rom[at..at + n])),
            Some(Slave::Belt(at)) => Ok(big_endian(&self.belt[at..at + n])),
            None => Err(Fault::BusTimeout),
        }
    }

    /// Stores the low bits of a value at a physical address (manual 3.5). ROM
    /// answers a store and keeps its bytes: document 01, "Closed by us".
    pub fn store(&mut self, address: u32, width: Width, value: u32) -> Result<(), Fault> {
        let n = width.bytes();
        match self.slave(address, width) {
            Some(Slave::Ram(at)) => put_big_endian(&mut self.ram[at..at + n], value),
            Some(Slave::Rom(_)) => {}
            Some(Slave::Belt(at)) => put_big_endian(&mut self.belt[at..at + n], value),
            None => return Err(Fault::BusTimeout),
        }
        Ok(())
    }
}
