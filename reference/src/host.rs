//! Host calls on record bytes, with the checks in the order of the table in
//! document 01, "Refused calls". No buffer changes in a refused call. A record
//! that is only read may have the old length (document 02, job 1). The length
//! of a list of charges is checked last (document 02, job 3).

use crate::memory::Memory;
use crate::mmu::NO_SLOT;
use crate::processor::Processor;
use crate::record::{self, RECORD_LENGTH};
use crate::run::{memory_refusal, ram_refusal, refusal, Answer, Charged};
use crate::view;

/// Result of a page view in numbers; if refused the slot is 33, and offset and
/// length are 0.
#[derive(Clone, Copy, Debug, PartialEq, Eq)]
pub struct View {
    pub refusal: u32,
    pub slot: u32,
    pub offset: u64,
    pub length: u64,
}

/// Writes the reset machine: refusal 4.
pub fn reset(machine: &mut [u8]) -> u32 {
    record::write_record(&Processor::reset(), machine)
}

/// Reads a record into a machine buffer: refusals 4 (for either), 5 and 6.
pub fn read_record(record: &[u8], machine: &mut [u8]) -> u32 {
    transfer(record, machine)
}

/// Writes a machine buffer to a record: refusals 4 (for either), 5 and 6.
pub fn write_record(machine: &[u8], record: &mut [u8]) -> u32 {
    transfer(machine, record)
}

/// Checks one record and writes it to another buffer.
fn transfer(from: &[u8], to: &mut [u8]) -> u32 {
    if !record::readable(from.len()) || to.len() != RECORD_LENGTH {
        return refusal::RECORD_LENGTH;
    }
    let (refusal, machine) = record::read_record(from);
    if refusal != refusal::NONE {
        return refusal;
    }
    record::write_record(&machine, to)
}

/// Reads the machine of a run: refusals 1 to 6. The run writes it too, so it
/// has the length of a record that is written.
fn machine_for_run(machine: &[u8], memory: &Memory) -> Result<Processor, u32> {
    let refusal = memory_refusal(memory);
    if refusal != refusal::NONE {
        return Err(refusal);
    }
    if machine.len() != RECORD_LENGTH {
        return Err(refusal::RECORD_LENGTH);
    }
    match record::read_record(machine) {
        (refusal::NONE, processor) => Ok(processor),
        (refusal, _) => Err(refusal),
    }
}

/// Plain run: refusals 1 to 7.
pub fn run(
    machine: &mut [u8],
    ram: &mut [u8],
    rom: &[u8],
    belt: &mut [u8],
    wanted: u64,
    lines: u16,
) -> Answer {
    let memory = Memory { ram, rom, belt };
    run_on_record(machine, memory, |processor, memory| {
        processor.run(memory, wanted, lines)
    })
}

/// Run to exception: refusals 1 to 7.
pub fn run_to_exception(
    machine: &mut [u8],
    ram: &mut [u8],
    rom: &[u8],
    belt: &mut [u8],
    wanted: u64,
    lines: u16,
) -> Answer {
    let memory = Memory { ram, rom, belt };
    run_on_record(machine, memory, |processor, memory| {
        processor.run_to_exception(memory, wanted, lines)
    })
}

/// Charged plain run: refusals 1 to 7, then 9. The list is only read.
pub fn run_charged(
    machine: &mut [u8],
    ram: &mut [u8],
    rom: &[u8],
    belt: &mut [u8],
    charges: &[u8],
    wanted: u64,
    lines: u16,
) -> Charged {
    let memory = Memory { ram, rom, belt };
    charged_on_record(machine, memory, |processor, memory| {
        processor.run_charged(memory, charges, wanted, lines)
    })
}

/// Charged run to exception: refusals 1 to 7, then 9. The list is only read.
pub fn run_to_exception_charged(
    machine: &mut [u8],
    ram: &mut [u8],
    rom: &[u8],
    belt: &mut [u8],
    charges: &[u8],
    wanted: u64,
    lines: u16,
) -> Charged {
    let memory = Memory { ram, rom, belt };
    charged_on_record(machine, memory, |processor, memory| {
        processor.run_to_exception_charged(memory, charges, wanted, lines)
    })
}

fn run_on_record(
    machine: &mut [u8],
    mut memory: Memory,
    run: impl FnOnce(&mut Processor, &mut Memory) -> Answer,
) -> Answer {
    let mut processor = match machine_for_run(machine, &memory) {
        Ok(processor) => processor,
        Err(refusal) => return Answer::refused(refusal),
    };
    let answer = run(&mut processor, &mut memory);
    if answer.refusal == refusal::NONE {
        record::write_record(&processor, machine);
    }
    answer
}

/// The same with a charge, which stays 0 where the machine is refused.
fn charged_on_record(
    machine: &mut [u8],
    memory: Memory,
    run: impl FnOnce(&mut Processor, &mut Memory) -> Charged,
) -> Charged {
    let mut charge = 0;
    let answer = run_on_record(machine, memory, |processor, memory| {
        let charged = run(processor, memory);
        charge = charged.charge;
        charged.answer
    });
    Charged { answer, charge }
}

/// Page view in numbers: refusals 1, 4, 5, 6 and 8.
pub fn page_view(ram: &[u8], machine: &[u8], page: u64) -> View {
    let refused = |refusal| View {
        refusal,
        slot: NO_SLOT,
        offset: 0,
        length: 0,
    };
    if ram_refusal(ram.len()) != refusal::NONE {
        return refused(refusal::RAM_LENGTH);
    }
    let (refusal, processor) = record::read_record(machine);
    if refusal != refusal::NONE {
        return refused(refusal);
    }
    let view = view::page_view(ram, &processor, page);
    View {
        refusal: view.refusal,
        slot: view.slot,
        offset: view.offset as u64,
        length: view.part.len() as u64,
    }
}
