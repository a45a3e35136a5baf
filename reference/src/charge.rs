//! Cycle charges (document 02, job 3): the list that the host lends, and what
//! a step costs by it.

use crate::step::Stepped;

/// Length of a list: 65 charges of 16 bits.
pub const CHARGES_LENGTH: usize = 130;

/// Entry of an accepted exception, behind those of the 64 opcodes.
pub const EXCEPTION_ENTRY: u32 = 64;

/// A list of the right length, as it was lent.
#[derive(Clone, Copy, Debug)]
pub struct Charges<'a>(&'a [u8]);

impl Charges<'_> {
    /// None for a list of another length, which is refused by 9.
    pub fn of(list: &[u8]) -> Option<Charges<'_>> {
        (list.len() == CHARGES_LENGTH).then_some(Charges(list))
    }

    /// The charge of an entry: the big-endian number at byte 2 * entry.
    pub fn entry(&self, entry: u32) -> u16 {
        let at = 2 * entry as usize;
        u16::from_be_bytes([self.0[at], self.0[at + 1]])
    }

    /// What a step costs: its opcode's charge if it completed an instruction,
    /// entry 64 alone if it accepted an exception.
    pub fn cost(&self, stepped: Stepped) -> u64 {
        u64::from(self.entry(stepped.opcode.unwrap_or(EXCEPTION_ENTRY)))
    }
}
