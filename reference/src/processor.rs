//! Processor state: register file, PC, special registers, TLB, replacement
//! index; and the timer, which a record holds beside them.

use crate::timer::Timer;

/// PSW vector bit: 0 selects the ROM base, 1 the RAM base (manual 2.7.1).
pub const PSW_V: u32 = 1 << 27;
/// PSW current privilege mode, 1 in User Mode (manual 2.7.2).
pub const PSW_UC: u32 = 1 << 26;
/// PSW current global interrupt enable (manual 2.7.3).
pub const PSW_IC: u32 = 1 << 23;
/// Lowest bit of the PSW field EID, which is five bits wide (manual 2.7.4).
pub const PSW_EID_SHIFT: u32 = 16;

// Kept bits: document 01, "Closed by us".
pub const KEPT_PSW: u32 = 0x0FFF_FFFF;
pub const KEPT_INDEX: u32 = 0x8000_001F;
pub const KEPT_HIGH: u32 = 0xFFFF_F000;
pub const KEPT_LOW: u32 = 0xFFFF_F003;

/// PC after reset (manual 2.11).
pub const RESET_PC: u32 = 0xE000_0000;

/// First TLB entry that TBWR may replace, and the last (manual 2.9.5).
pub const FIRST_REPLACED: u8 = 4;
pub const LAST_REPLACED: u8 = 31;

/// TLB entry: page number in the high word; frame number, write bit 1 and
/// valid bit 0 in the low word (manual 2.9.6).
#[derive(Clone, Copy, Debug, PartialEq, Eq)]
pub struct TlbEntry {
    pub high: u32,
    pub low: u32,
}

/// The whole processor state and the timer, in the order of the machine record.
#[derive(Clone, Debug, PartialEq, Eq)]
pub struct Processor {
    pub registers: [u32; 32],
    pub pc: u32,
    pub psw: u32,
    pub tlb_index: u32,
    pub entry_high: u32,
    pub entry_low: u32,
    pub bad_address: u32,
    pub tlb: [TlbEntry; 32],
    pub replacement: u8,
    pub timer: Timer,
}

impl Processor {
    /// The machine at reset: document 01, "Closed by us". The special
    /// registers count among the registers there, so all of them are 0, and so
    /// is the timer (document 02, job 1).
    pub fn reset() -> Processor {
        Processor {
            registers: [0; 32],
            pc: RESET_PC,
            psw: 0,
            tlb_index: 0,
            entry_high: 0,
            entry_low: 0,
            bad_address: 0,
            tlb: [TlbEntry {
                high: 0xC000_0000,
                low: 0,
            }; 32],
            replacement: FIRST_REPLACED,
            timer: Timer::default(),
        }
    }

    /// Whether the machine passes the test of refusal 6 (document 01,
    /// "Refused calls"; document 02, job 1).
    pub fn fit(&self) -> bool {
        let only = |word: u32, kept: u32| word & !kept == 0;
        self.registers[0] == 0
            && (FIRST_REPLACED..=LAST_REPLACED).contains(&self.replacement)
            && only(self.psw, KEPT_PSW)
            && only(self.tlb_index, KEPT_INDEX)
            && only(self.entry_high, KEPT_HIGH)
            && only(self.entry_low, KEPT_LOW)
            && self
                .tlb
                .iter()
                .all(|entry| only(entry.high, KEPT_HIGH) && only(entry.low, KEPT_LOW))
            && self.timer.fit()
    }

    /// Reads a general-purpose register; register 0 reads 0 (manual 2.4).
    pub fn register(&self, number: u32) -> u32 {
        match number & 31 {
            0 => 0,
            n => self.registers[n as usize],
        }
    }

    /// Writes a general-purpose register; a write to register 0 is dropped
    /// (manual 2.4).
    pub fn set_register(&mut self, number: u32, value: u32) {
        if number & 31 != 0 {
            self.registers[(number & 31) as usize] = value;
        }
    }

    /// Reads a special register (manual 2.6). Numbers above 4 read 0:
    /// document 01, "Closed by us".
    pub fn special(&self, number: u32) -> u32 {
        match number {
            0 => self.psw,
            1 => self.tlb_index,
            2 => self.entry_high,
            3 => self.entry_low,
            4 => self.bad_address,
            _ => 0,
        }
    }

    /// Writes the kept bits of a special register (manual 2.6). Numbers above
    /// 4 store nothing: document 01, "Closed by us".
    pub fn set_special(&mut self, number: u32, value: u32) {
        match number {
            0 => self.psw = value & KEPT_PSW,
            1 => self.tlb_index = value & KEPT_INDEX,
            2 => self.entry_high = value & KEPT_HIGH,
            3 => self.entry_low = value & KEPT_LOW,
            4 => self.bad_address = value,
            _ => {}
        }
    }

    /// Whether the processor runs in User Mode (manual 2.7.2).
    pub fn user_mode(&self) -> bool {
        self.psw & PSW_UC != 0
    }
}
