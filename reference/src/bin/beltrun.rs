//! Runs four steps of a ROM image from standard input (document 01, "Cases").

use eco32_reference::{Memory, Processor, NO_EXCEPTION};
use std::fs::File;
use std::io::{self, Read};
use std::os::fd::AsFd;

/// Reads exactly 4,096 bytes, or nothing if the input is shorter. The
/// descriptor is read without a buffer, so that later bytes stay unread.
fn read_rom() -> Option<[u8; 4096]> {
    let mut input = File::from(io::stdin().as_fd().try_clone_to_owned().ok()?);
    let mut rom = [0; 4096];
    input.read_exact(&mut rom).ok()?;
    Some(rom)
}

fn main() {
    let Some(rom) = read_rom() else {
        println!("short input");
        return;
    };
    let mut memory = Memory {
        ram: &mut [0; 4096],
        rom: &rom,
        belt: &mut [0; 1024],
    };
    let mut machine = Processor::reset();
    for step in 1..=4 {
        let answer = machine.run_to_exception(&mut memory, 1, 0);
        if answer.eid == NO_EXCEPTION {
            println!("{step} {:08X} --", machine.pc);
        } else {
            println!("{step} {:08X} {:02}", machine.pc, answer.eid);
        }
    }
}
