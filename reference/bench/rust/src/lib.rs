//! The reference simulator's plain run, to be called from C as `eco32_run` is.

use eco32_reference::host;
use std::slice::{from_raw_parts, from_raw_parts_mut};

/// `struct eco32_answer` of eco32.h.
#[repr(C)]
pub struct Answer {
    refusal: u32,
    steps: u32,
    eid: u32,
    slot: u32,
}

/// # Safety
/// Each pointer has to have so many bytes behind it as its length says, and
/// the buffers must not overlap.
#[no_mangle]
#[allow(clippy::too_many_arguments)] // those of eco32_run
pub unsafe extern "C" fn reference_run(
    machine: *mut u8,
    machine_len: usize,
    ram: *mut u8,
    ram_len: usize,
    rom: *const u8,
    rom_len: usize,
    belt: *mut u8,
    belt_len: usize,
    wanted: u64,
    lines: u16,
) -> Answer {
    let machine = from_raw_parts_mut(machine, machine_len);
    let ram = from_raw_parts_mut(ram, ram_len);
    let rom = from_raw_parts(rom, rom_len);
    let belt = from_raw_parts_mut(belt, belt_len);
    let answer = host::run(machine, ram, rom, belt, wanted, lines);
    Answer {
        refusal: answer.refusal,
        steps: answer.steps,
        eid: answer.eid,
        slot: answer.slot,
    }
}
