//! Runs of a processor handed over by value, and the refusal numbers.

use crate::charge::Charges;
use crate::exception::NO_EXCEPTION;
use crate::memory::Memory;
use crate::mmu::NO_SLOT;
use crate::processor::Processor;
use crate::step::Stepped;

/// Most steps that one run may want.
pub const MAX_STEPS: u64 = 1_000_000;

/// Refusal numbers (document 01, "Refused calls"; document 02, job 3).
pub mod refusal {
    pub const NONE: u32 = 0;
    pub const RAM_LENGTH: u32 = 1;
    pub const ROM_LENGTH: u32 = 2;
    pub const BELT_LENGTH: u32 = 3;
    pub const RECORD_LENGTH: u32 = 4;
    pub const KIND_BYTE: u32 = 5;
    pub const UNFIT_MACHINE: u32 = 6;
    pub const TOO_MANY_STEPS: u32 = 7;
    pub const NO_RAM_FRAME: u32 = 8;
    pub const CHARGES_LENGTH: u32 = 9;
}

/// Result of a run. The slot is that of the last step's data access (document
/// 02, job 2).
#[derive(Clone, Copy, Debug, PartialEq, Eq)]
pub struct Answer {
    pub refusal: u32,
    pub steps: u32,
    pub eid: u32,
    pub slot: u32,
}

impl Answer {
    pub fn refused(refusal: u32) -> Answer {
        Answer {
            refusal,
            steps: 0,
            eid: NO_EXCEPTION,
            slot: NO_SLOT,
        }
    }
}

/// Result of a charged run: that of the run, and the charge of its steps
/// together, 0 if refused (document 02, job 3).
#[derive(Clone, Copy, Debug, PartialEq, Eq)]
pub struct Charged {
    pub answer: Answer,
    pub charge: u64,
}

impl Charged {
    pub fn refused(refusal: u32) -> Charged {
        Charged {
            answer: Answer::refused(refusal),
            charge: 0,
        }
    }
}

fn length_fits(length: usize, most: usize) -> bool {
    (4096..=most).contains(&length) && length.is_multiple_of(4096)
}

/// Refusal 1 for a RAM length outside "What the host lends", or 0.
pub fn ram_refusal(length: usize) -> u32 {
    if length_fits(length, 536_870_912) {
        refusal::NONE
    } else {
        refusal::RAM_LENGTH
    }
}

/// Refusals 1, 2 and 3 for lent memory, in that order, or 0.
pub fn memory_refusal(memory: &Memory) -> u32 {
    if ram_refusal(memory.ram.len()) != refusal::NONE {
        return refusal::RAM_LENGTH;
    }
    if !length_fits(memory.rom.len(), 268_435_456) {
        return refusal::ROM_LENGTH;
    }
    if memory.belt.len() != 1024 {
        return refusal::BELT_LENGTH;
    }
    refusal::NONE
}

impl Processor {
    fn run_refusal(&self, memory: &Memory, wanted: u64) -> u32 {
        let refusal = memory_refusal(memory);
        if refusal != refusal::NONE {
            return refusal;
        }
        if !self.fit() {
            return refusal::UNFIT_MACHINE;
        }
        if wanted > MAX_STEPS {
            return refusal::TOO_MANY_STEPS;
        }
        refusal::NONE
    }

    /// Plain run (document 01, "Runs and views"): goes on through exceptions
    /// until the wanted count is reached.
    pub fn run(&mut self, memory: &mut Memory, wanted: u64, lines: u16) -> Answer {
        let refusal = self.run_refusal(memory, wanted);
        if refusal != refusal::NONE {
            return Answer::refused(refusal);
        }
        let mut steps = 0;
        let mut slot = NO_SLOT;
        while u64::from(steps) < wanted {
            slot = self.step(memory, lines).slot;
            steps += 1;
        }
        Answer {
            refusal,
            steps,
            eid: NO_EXCEPTION,
            slot,
        }
    }

    /// Run to exception (document 01, "Runs and views"): a plain run cut short
    /// behind the first accepted exception, whose EID it answers.
    pub fn run_to_exception(&mut self, memory: &mut Memory, wanted: u64, lines: u16) -> Answer {
        let refusal = self.run_refusal(memory, wanted);
        if refusal != refusal::NONE {
            return Answer::refused(refusal);
        }
        let mut steps = 0;
        let mut eid = NO_EXCEPTION;
        let mut slot = NO_SLOT;
        while u64::from(steps) < wanted && eid == NO_EXCEPTION {
            Stepped { eid, slot, .. } = self.step(memory, lines);
            steps += 1;
        }
        Answer {
            refusal,
            steps,
            eid,
            slot,
        }
    }

    /// Refusals as of a run without charges, and then 9 (document 02, job 3).
    fn charges_for_run<'a>(
        &self,
        memory: &Memory,
        charges: &'a [u8],
        wanted: u64,
    ) -> Result<Charges<'a>, u32> {
        match self.run_refusal(memory, wanted) {
            refusal::NONE => Charges::of(charges).ok_or(refusal::CHARGES_LENGTH),
            refusal => Err(refusal),
        }
    }

    /// Charged plain run (document 02, job 3): the steps of the plain run, and
    /// the exact sum of what they cost.
    pub fn run_charged(
        &mut self,
        memory: &mut Memory,
        charges: &[u8],
        wanted: u64,
        lines: u16,
    ) -> Charged {
        match self.charges_for_run(memory, charges, wanted) {
            Ok(charges) => self.charged_steps(memory, charges, wanted, lines, false),
            Err(refusal) => Charged::refused(refusal),
        }
    }

    /// Charged run to exception (document 02, job 3): the step that accepts the
    /// exception is charged too.
    pub fn run_to_exception_charged(
        &mut self,
        memory: &mut Memory,
        charges: &[u8],
        wanted: u64,
        lines: u16,
    ) -> Charged {
        match self.charges_for_run(memory, charges, wanted) {
            Ok(charges) => self.charged_steps(memory, charges, wanted, lines, true),
            Err(refusal) => Charged::refused(refusal),
        }
    }

    fn charged_steps(
        &mut self,
        memory: &mut Memory,
        charges: Charges,
        wanted: u64,
        lines: u16,
        to_exception: bool,
    ) -> Charged {
        let mut answer = Answer {
            refusal: refusal::NONE,
            steps: 0,
            eid: NO_EXCEPTION,
            slot: NO_SLOT,
        };
        let mut charge = 0;
        while u64::from(answer.steps) < wanted && answer.eid == NO_EXCEPTION {
            let stepped = self.step(memory, lines);
            charge += charges.cost(stepped);
            answer.steps += 1;
            answer.slot = stepped.slot;
            if to_exception {
                answer.eid = stepped.eid;
            }
        }
        Charged { answer, charge }
    }
}
