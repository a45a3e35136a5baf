//! The kernel, in the first frame of ROM: boot, exception service, stock
//! routine.
//!
//! Registers 24 to 27 are the kernel's, and a routine loses them at each
//! exception. They are cleared before the return, so that no word of the
//! kernel's stays in one.

use super::layout::*;
use crate::asm::*;
use crate::builder::{Builder, Routine};

const EID: u32 = 24;
/// Holds the address of the kernel's frame.
const FRAME: u32 = 25;
const SCRATCH: u32 = 26;
const VALUE: u32 = 27;
/// Takes the return address at an exception.
const RETURN: u32 = 30;

/// EID of a trap (manual 2.7.4).
const TRAPPED: i32 = 20;

pub fn kernel() -> Result<Routine, String> {
    let mut b = Builder::new(0xE000_0000);
    entries(&mut b);
    clear_memory(&mut b);
    blank_tlb(&mut b);
    fill_tlb(&mut b);
    enter_routine(&mut b);
    service(&mut b);
    report(&mut b);
    stock(&mut b);
    log(&mut b);
    leave(&mut b);
    stop(&mut b);
    mappings(&mut b);
    b.finish()
}

/// Reset starts at base, exceptions at base + 4, user misses at base + 8.
fn entries(b: &mut Builder) {
    b.heading("Kernel: reset, exceptions, and TLB misses in user space");
    b.jump(j, "boot", "reset");
    b.jump(j, "service", "base + 4: every exception but a user miss");
    b.jump(
        j,
        "service",
        "base + 8: a user miss is one more fault to log",
    );
}

/// RAM may hold anything at first: its first three frames become 0.
fn clear_memory(b: &mut Builder) {
    b.heading("Boot: clear the kernel's frame, the count's and the routine's");
    b.label("boot");
    b.constant(SCRATCH, KERNEL_FRAME_AT, "from the first RAM word");
    b.constant(VALUE, CLEARED_TO, "to behind the third frame");
    b.label("clear");
    b.op(stw(0, SCRATCH, 0), "");
    b.op(addi(SCRATCH, SCRATCH, 4), "");
    b.branch(bltu, SCRATCH, VALUE, "clear", "");
}

/// The manual promises nothing of the TLB at reset: every entry gets a page
/// number that no lookup asks for (manual 2.9.3).
fn blank_tlb(b: &mut Builder) {
    b.heading("Boot: blank all 32 TLB entries");
    b.constant(SCRATCH, 0xC000_0000, "a page that is never looked up");
    b.op(mvts(SCRATCH, ENTRY_HIGH), "Entry High");
    b.op(mvts(0, ENTRY_LOW), "Entry Low");
    b.op(add(SCRATCH, 0, 0), "entry 0 is the first");
    b.constant(VALUE, 32, "");
    b.label("blank");
    b.op(mvts(SCRATCH, TLB_INDEX), "TLB Index");
    b.op(tbwi(), "");
    b.op(addi(SCRATCH, SCRATCH, 1), "");
    b.branch(bltu, SCRATCH, VALUE, "blank", "");
}

/// Entries 0 up take the words of the table `mappings`.
fn fill_tlb(b: &mut Builder) {
    b.heading("Boot: fill TLB entries from the table of mappings");
    b.address(SCRATCH, "mappings", "the table");
    b.address(VALUE, "mappings_end", "");
    b.op(add(EID, 0, 0), "R24 is the entry's index here");
    b.label("fill");
    b.op(ldw(FRAME, SCRATCH, 0), "high word");
    b.op(mvts(FRAME, ENTRY_HIGH), "Entry High");
    b.op(ldw(FRAME, SCRATCH, 4), "low word");
    b.op(mvts(FRAME, ENTRY_LOW), "Entry Low");
    b.op(mvts(EID, TLB_INDEX), "TLB Index");
    b.op(tbwi(), "");
    b.op(addi(EID, EID, 1), "");
    b.op(addi(SCRATCH, SCRATCH, 8), "");
    b.branch(bltu, SCRATCH, VALUE, "fill", "");
}

/// User Mode is entered by a return from exception with U_P set.
fn enter_routine(b: &mut Builder) {
    b.heading("Boot: enter the routine in User Mode, interrupts off");
    b.constant(SCRATCH, 0x0200_0000, "PSW with U_P alone set");
    b.op(mvts(SCRATCH, PSW), "PSW");
    b.constant(RETURN, ROUTINE_PAGE, "the routine's first instruction");
    b.jump(j, "leave", "");
}

/// Counts the exception under its EID. A trap is a report; all else is a
/// fault, since no interrupt is enabled.
fn service(b: &mut Builder) {
    b.heading("Service: tally the EID; a trap is a report, all else a fault");
    b.label("service");
    b.op(mvfs(EID, PSW), "PSW");
    b.op(slri(EID, EID, 16), "");
    b.op(andi(EID, EID, 31), "R24 is the EID");
    b.constant(FRAME, KERNEL_FRAME_AT, "R25 is the kernel's frame");
    b.op(slli(SCRATCH, EID, 2), "");
    b.op(add(SCRATCH, SCRATCH, FRAME), "");
    b.op(ldw(VALUE, SCRATCH, TALLY as i32), "");
    b.op(addi(VALUE, VALUE, 1), "");
    b.op(stw(VALUE, SCRATCH, TALLY as i32), "");
    b.op(addi(SCRATCH, 0, TRAPPED), "");
    b.branch(bne, EID, SCRATCH, "log", "");
}

/// R4 says what is reported; an unknown report is logged as a fault is.
fn report(b: &mut Builder) {
    b.heading("Report: R4 is 1 for a match, 2 for a reject, 3 for done");
    b.op(addi(SCRATCH, 0, REPORT_MATCH as i32), "");
    b.branch(beq, REPORT, SCRATCH, "stock", "");
    b.op(addi(SCRATCH, 0, REPORT_REJECT as i32), "");
    b.branch(beq, REPORT, SCRATCH, "stock", "");
    b.op(addi(SCRATCH, 0, REPORT_DONE as i32), "");
    b.branch(bne, REPORT, SCRATCH, "log", "no such report");
    b.op(addi(SCRATCH, 0, OUTCOME_DONE as i32), "");
    b.jump(j, "stop", "");
}

/// The one place that writes the count's frame.
fn stock(b: &mut Builder) {
    b.heading("Stock routine: count the pack, and the reject if it is one");
    b.label("stock");
    b.constant(SCRATCH, COUNT_PAGE, "the count's frame");
    b.op(ldw(VALUE, SCRATCH, PACKS as i32), "");
    b.op(addi(VALUE, VALUE, 1), "");
    b.op(stw(VALUE, SCRATCH, PACKS as i32), "");
    b.op(addi(VALUE, 0, REPORT_REJECT as i32), "");
    b.branch(bne, REPORT, VALUE, "skip", "a match: counted");
    b.op(ldw(VALUE, SCRATCH, REJECTS as i32), "");
    b.op(addi(VALUE, VALUE, 1), "");
    b.op(stw(VALUE, SCRATCH, REJECTS as i32), "the reject count");
    b.jump(j, "skip", "");
}

/// A full log ends the routine: past it the count's frame begins.
fn log(b: &mut Builder) {
    b.heading("Log: EID, instruction's address, Bad Address, Entry High");
    b.label("log");
    b.op(ldw(SCRATCH, FRAME, LOGGED as i32), "");
    b.op(addi(VALUE, 0, MOST_LOGGED as i32), "");
    b.branch(bgeu, SCRATCH, VALUE, "ended", "the log is full");
    b.op(addi(VALUE, SCRATCH, 1), "");
    b.op(stw(VALUE, FRAME, LOGGED as i32), "");
    b.op(slli(SCRATCH, SCRATCH, 4), "");
    b.op(add(SCRATCH, SCRATCH, FRAME), "");
    b.op(stw(EID, SCRATCH, LOG as i32), "");
    b.op(stw(RETURN, SCRATCH, LOG as i32 + 4), "");
    b.op(mvfs(VALUE, BAD_ADDRESS), "Bad Address");
    b.op(stw(VALUE, SCRATCH, LOG as i32 + 8), "");
    b.op(mvfs(VALUE, ENTRY_HIGH), "Entry High");
    b.op(stw(VALUE, SCRATCH, LOG as i32 + 12), "");
    b.op(slri(SCRATCH, RETURN, 12), "");
    b.op(addi(VALUE, 0, (ROUTINE_PAGE >> 12) as i32), "");
    b.branch(bne, SCRATCH, VALUE, "ended", "it left its page");
}

/// The return goes behind the instruction that trapped or faulted.
fn leave(b: &mut Builder) {
    b.heading("Leave: on behind the instruction, the kernel's registers 0");
    b.label("skip");
    b.op(addi(RETURN, RETURN, 4), "");
    b.label("leave");
    for register in [EID, FRAME, SCRATCH, VALUE] {
        b.op(add(register, 0, 0), "");
    }
    b.op(rfx(), "");
}

/// The outcome is R26; the last jump is where the host finds the kernel.
fn stop(b: &mut Builder) {
    b.heading("Stop: write the outcome, and stay");
    b.label("ended");
    b.op(addi(SCRATCH, 0, OUTCOME_ENDED as i32), "");
    b.label("stop");
    b.op(stw(SCRATCH, FRAME, OUTCOME as i32), "");
    b.label("halt");
    b.jump(j, "halt", "");
}

fn mappings(b: &mut Builder) {
    b.heading("Table of mappings: high word, low word of entries 0 up");
    b.label("mappings");
    for (high, low, what) in MAPPINGS {
        b.data(high, what);
        b.data(low, "");
    }
    b.label("mappings_end");
}
