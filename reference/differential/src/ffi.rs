//! The C interface of libeco32.a. All unsafe code of the test is here.

use eco32_reference::host::View;
use eco32_reference::{Answer, Charged};

#[repr(C)]
struct RawAnswer {
    refusal: u32,
    steps: u32,
    eid: u32,
    slot: u32,
}

#[repr(C)]
struct RawCharged {
    refusal: u32,
    steps: u32,
    eid: u32,
    slot: u32,
    charge: u64,
}

#[repr(C)]
struct RawView {
    refusal: u32,
    slot: u32,
    offset: u64,
    length: u64,
}

type RawRun = unsafe extern "C" fn(
    *mut u8,
    usize,
    *mut u8,
    usize,
    *const u8,
    usize,
    *mut u8,
    usize,
    u64,
    u16,
) -> RawAnswer;

type RawRunCharged = unsafe extern "C" fn(
    *mut u8,
    usize,
    *mut u8,
    usize,
    *const u8,
    usize,
    *mut u8,
    usize,
    *const u8,
    usize,
    u64,
    u16,
) -> RawCharged;

extern "C" {
    fn eco32_reset(machine: *mut u8, machine_len: usize) -> u32;
    fn eco32_read_record(
        record: *const u8,
        record_len: usize,
        machine: *mut u8,
        machine_len: usize,
    ) -> u32;
    fn eco32_write_record(
        machine: *const u8,
        machine_len: usize,
        record: *mut u8,
        record_len: usize,
    ) -> u32;
    fn eco32_run(
        machine: *mut u8,
        machine_len: usize,
        ram: *mut u8,
        ram_len: usize,
        rom: *const u8,
        rom_len: usize,
        belt: *mut u8,
        belt_len: usize,
        wanted: u64,
        lines: u16,
    ) -> RawAnswer;
    fn eco32_run_to_exception(
        machine: *mut u8,
        machine_len: usize,
        ram: *mut u8,
        ram_len: usize,
        rom: *const u8,
        rom_len: usize,
        belt: *mut u8,
        belt_len: usize,
        wanted: u64,
        lines: u16,
    ) -> RawAnswer;
    fn eco32_run_charged(
        machine: *mut u8,
        machine_len: usize,
        ram: *mut u8,
        ram_len: usize,
        rom: *const u8,
        rom_len: usize,
        belt: *mut u8,
        belt_len: usize,
        charges: *const u8,
        charges_len: usize,
        wanted: u64,
        lines: u16,
    ) -> RawCharged;
    fn eco32_run_to_exception_charged(
        machine: *mut u8,
        machine_len: usize,
        ram: *mut u8,
        ram_len: usize,
        rom: *const u8,
        rom_len: usize,
        belt: *mut u8,
        belt_len: usize,
        charges: *const u8,
        charges_len: usize,
        wanted: u64,
        lines: u16,
    ) -> RawCharged;
    fn eco32_page_view(
        ram: *const u8,
        ram_len: usize,
        machine: *const u8,
        machine_len: usize,
        page: u64,
    ) -> RawView;
}

// In each call below every pointer comes with the length of its own slice, and
// the slices are borrowed for the call, so the library may use them in it.

pub fn reset(machine: &mut [u8]) -> u32 {
    unsafe { eco32_reset(machine.as_mut_ptr(), machine.len()) }
}

pub fn read_record(record: &[u8], machine: &mut [u8]) -> u32 {
    unsafe {
        eco32_read_record(
            record.as_ptr(),
            record.len(),
            machine.as_mut_ptr(),
            machine.len(),
        )
    }
}

pub fn write_record(machine: &[u8], record: &mut [u8]) -> u32 {
    unsafe {
        eco32_write_record(
            machine.as_ptr(),
            machine.len(),
            record.as_mut_ptr(),
            record.len(),
        )
    }
}

fn call_run(
    run: RawRun,
    machine: &mut [u8],
    ram: &mut [u8],
    rom: &[u8],
    belt: &mut [u8],
    wanted: u64,
    lines: u16,
) -> Answer {
    let raw = unsafe {
        run(
            machine.as_mut_ptr(),
            machine.len(),
            ram.as_mut_ptr(),
            ram.len(),
            rom.as_ptr(),
            rom.len(),
            belt.as_mut_ptr(),
            belt.len(),
            wanted,
            lines,
        )
    };
    Answer {
        refusal: raw.refusal,
        steps: raw.steps,
        eid: raw.eid,
        slot: raw.slot,
    }
}

pub fn run(
    machine: &mut [u8],
    ram: &mut [u8],
    rom: &[u8],
    belt: &mut [u8],
    wanted: u64,
    lines: u16,
) -> Answer {
    call_run(eco32_run, machine, ram, rom, belt, wanted, lines)
}

pub fn run_to_exception(
    machine: &mut [u8],
    ram: &mut [u8],
    rom: &[u8],
    belt: &mut [u8],
    wanted: u64,
    lines: u16,
) -> Answer {
    call_run(
        eco32_run_to_exception,
        machine,
        ram,
        rom,
        belt,
        wanted,
        lines,
    )
}

/// What a charged run is lent, in the order of its parameters.
pub struct Lending<'a> {
    pub machine: &'a mut [u8],
    pub ram: &'a mut [u8],
    pub rom: &'a [u8],
    pub belt: &'a mut [u8],
    pub charges: &'a [u8],
}

fn call_charged(run: RawRunCharged, lent: Lending, wanted: u64, lines: u16) -> Charged {
    let raw = unsafe {
        run(
            lent.machine.as_mut_ptr(),
            lent.machine.len(),
            lent.ram.as_mut_ptr(),
            lent.ram.len(),
            lent.rom.as_ptr(),
            lent.rom.len(),
            lent.belt.as_mut_ptr(),
            lent.belt.len(),
            lent.charges.as_ptr(),
            lent.charges.len(),
            wanted,
            lines,
        )
    };
    let answer = Answer {
        refusal: raw.refusal,
        steps: raw.steps,
        eid: raw.eid,
        slot: raw.slot,
    };
    Charged {
        answer,
        charge: raw.charge,
    }
}

pub fn run_charged(lent: Lending, wanted: u64, lines: u16) -> Charged {
    call_charged(eco32_run_charged, lent, wanted, lines)
}

pub fn run_to_exception_charged(lent: Lending, wanted: u64, lines: u16) -> Charged {
    call_charged(eco32_run_to_exception_charged, lent, wanted, lines)
}

pub fn page_view(ram: &[u8], machine: &[u8], page: u64) -> View {
    let raw = unsafe {
        eco32_page_view(
            ram.as_ptr(),
            ram.len(),
            machine.as_ptr(),
            machine.len(),
            page,
        )
    };
    View {
        refusal: raw.refusal,
        slot: raw.slot,
        offset: raw.offset,
        length: raw.length,
    }
}
