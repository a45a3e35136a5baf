//! Runs a small built-in image: a kernel in ROM maps two pages for a routine
//! in User Mode, which stores to one and may not store to the other.

use eco32_reference::asm::*;
use eco32_reference::{Memory, Processor, NO_EXCEPTION};

/// Frame 1, behind user page 00010, read-only: the routine and one word.
const CODE_FRAME: usize = 0x1000;
const GUARDED_AT: usize = 0x1800;
const GUARDED_WORD: u32 = 0x0000_0007;
/// Frame 2, behind user page 00020, writable.
const DATA_AT: usize = 0x2000;
/// Where the kernel keeps the word reported by the trap.
const REPORT_AT: usize = 0x0100;

fn kernel() -> Vec<u32> {
    vec![
        j(12), // E0000000: to boot
        j(1),  // E0000004: to service
        j(9),  // E0000008: to the endless jump; no user miss is expected
        // service, E000000C: only a trap is answered, else to the endless jump
        mvfs(16, 0),
        slri(16, 16, 16),
        andi(16, 16, 31),
        addi(17, 0, 20),
        bne(16, 17, 4),
        // keep the reported word in frame 0, return behind the trap
        ldhi(18, 0xC000),
        stw(9, 18, 0x0100),
        addi(30, 30, 4),
        rfx(),
        j(-1),
        // boot, E0000034: entry 0 maps page 00010 to frame 00001, read-only
        ldhi(1, 0x0001),
        ori(2, 0, 0x1001),
        mvts(1, 2),
        mvts(2, 3),
        tbwi(),
        // entry 1 maps page 00020 to frame 00002, writable
        ldhi(1, 0x0002),
        ori(2, 0, 0x2003),
        ori(3, 0, 1),
        mvts(1, 2),
        mvts(2, 3),
        mvts(3, 1),
        tbwi(),
        // User Mode at 00010000 by a return from exception
        ldhi(4, 0x0200),
        mvts(4, 0),
        ldhi(30, 0x0001),
        rfx(),
    ]
}

fn routine() -> Vec<u32> {
    vec![
        ldhi(8, 0x0002),
        ori(9, 0, 0x0ECA),
        stw(9, 8, 0),
        trap(),
        ldhi(10, 0x0001),
        stw(9, 10, 0x0800),
    ]
}

fn place(memory: &mut [u8], at: usize, words: &[u32]) {
    for (n, word) in words.iter().enumerate() {
        memory[at + 4 * n..at + 4 * n + 4].copy_from_slice(&word.to_be_bytes());
    }
}

fn word_at(memory: &[u8], at: usize) -> u32 {
    memory[at..at + 4]
        .iter()
        .fold(0, |value, &byte| value << 8 | u32::from(byte))
}

fn main() {
    let mut ram = vec![0; 0x3000];
    let mut rom = vec![0; 0x1000];
    let mut belt = vec![0; 1024];
    place(&mut rom, 0, &kernel());
    place(&mut ram, CODE_FRAME, &routine());
    place(&mut ram, GUARDED_AT, &[GUARDED_WORD]);

    let mut machine = Processor::reset();
    let mut memory = Memory {
        ram: &mut ram,
        rom: &rom,
        belt: &mut belt,
    };
    println!("State after each step:");
    println!("step PC       mode   EID");
    for step in 1..=100 {
        let pc_before = machine.pc;
        let eid = machine.run_to_exception(&mut memory, 1, 0).eid;
        let mode = if machine.user_mode() {
            "user"
        } else {
            "kernel"
        };
        let shown = match eid {
            NO_EXCEPTION => "--".to_string(),
            _ => format!("{eid:02}"),
        };
        println!("{step:4} {:08X} {mode:6} {shown}", machine.pc);
        if machine.pc == pc_before && eid == NO_EXCEPTION {
            break;
        }
    }
    println!("bad address          {:08X}", machine.bad_address);
    println!("word reported        {:08X}", word_at(&ram, REPORT_AT));
    println!("word stored          {:08X}", word_at(&ram, DATA_AT));
    println!("word left untouched  {:08X}", word_at(&ram, GUARDED_AT));
}
