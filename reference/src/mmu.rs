//! Memory management unit: address translation and the TLB operations.

use crate::exception::Fault;
use crate::memory::Width;
use crate::processor::{Processor, TlbEntry, FIRST_REPLACED, LAST_REPLACED};

/// First privileged virtual address (manual 2.7.2).
pub const PRIVILEGED_BASE: u32 = 0x8000_0000;
/// First direct-mapped virtual address (manual 2.9.1).
pub const DIRECT_BASE: u32 = 0xC000_0000;

const VALID: u32 = 1 << 0;
const WRITE: u32 = 1 << 1;

/// Value of TLB Index after a search without a match (manual 3.6.5).
const NOT_FOUND: u32 = 0x8000_0000;

/// Slot of a direct-mapped address, which no TLB entry serves (document 02,
/// job 2).
pub const DIRECT_MAPPED: u32 = 32;
/// Answered in place of a slot where no access was completed (document 02, job
/// 2).
pub const NO_SLOT: u32 = 33;

/// Direction of an access; an instruction fetch is a load.
#[derive(Clone, Copy, Debug, PartialEq, Eq)]
pub enum Access {
    Load,
    Store,
}

/// What an address became: the physical one, and the slot that served it, the
/// index of the TLB entry or 32 (document 02, job 2).
#[derive(Clone, Copy, Debug, PartialEq, Eq)]
pub struct Found {
    pub physical: u32,
    pub slot: u32,
}

impl Processor {
    /// Index of the TLB entry with the page number of `address`; the lower
    /// index wins (document 01, "Closed by us"). The valid bit takes no part
    /// in the search (manual 2.9.4).
    pub fn find_entry(&self, address: u32) -> Option<usize> {
        let page = address >> 12;
        self.tlb.iter().position(|entry| entry.high >> 12 == page)
    }

    /// Translates a virtual address; the order of the tests is that of
    /// document 01, "One step".
    pub fn translate(
        &self,
        address: u32,
        width: Width,
        access: Access,
        user_mode: bool,
    ) -> Result<Found, Fault> {
        if !address.is_multiple_of(width.bytes() as u32) {
            return Err(Fault::IllegalAddress(address));
        }
        if user_mode && address >= PRIVILEGED_BASE {
            return Err(Fault::PrivilegedAddress(address));
        }
        if address >= DIRECT_BASE {
            return Ok(Found {
                physical: address - DIRECT_BASE,
                slot: DIRECT_MAPPED,
            });
        }
        let Some(index) = self.find_entry(address) else {
            return Err(Fault::TlbMiss(address));
        };
        let low = self.tlb[index].low;
        if low & VALID == 0 {
            return Err(Fault::TlbInvalid(address));
        }
        // Bit 1 permits writing: document 01, "Closed by us", prefers manual
        // 2.9.4 to 2.9.6.
        if access == Access::Store && low & WRITE == 0 {
            return Err(Fault::TlbWrite(address));
        }
        Ok(Found {
            physical: (low & 0xFFFF_F000) | (address & 0x0000_0FFF),
            slot: index as u32,
        })
    }

    /// TBS (manual 3.6.5). Page numbers of the direct-mapped space are found
    /// too.
    pub fn search_tlb(&mut self) {
        self.tlb_index = match self.find_entry(self.entry_high) {
            Some(index) => index as u32,
            None => NOT_FOUND,
        };
    }

    /// TBWR (manual 3.6.6). The replacement index, as it is before the step's
    /// move, stands for the random number: document 02, job 4.
    pub fn write_tlb_random(&mut self) {
        self.write_tlb(u32::from(self.replacement));
    }

    /// The move of the replacement index after each step, exceptions included.
    /// Document 02, job 4, withdraws the rule of document 01 by which TBWR
    /// alone moved it.
    pub fn move_replacement(&mut self) {
        self.replacement = if self.replacement >= LAST_REPLACED {
            FIRST_REPLACED
        } else {
            self.replacement + 1
        };
    }

    /// TBRI (manual 3.6.7).
    pub fn read_tlb_indexed(&mut self) {
        let entry = self.tlb[(self.tlb_index & 31) as usize];
        self.entry_high = entry.high;
        self.entry_low = entry.low;
    }

    /// TBWI (manual 3.6.8).
    pub fn write_tlb_indexed(&mut self) {
        self.write_tlb(self.tlb_index);
    }

    fn write_tlb(&mut self, index: u32) {
        self.tlb[(index & 31) as usize] = TlbEntry {
            high: self.entry_high,
            low: self.entry_low,
        };
    }
}
