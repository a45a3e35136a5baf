//! The barcode routine, sealed in the second frame of ROM and run in User
//! Mode: it reads each pack's code from the belt registers and reports whether
//! its table has it.

use super::layout::*;
use crate::asm::*;
use crate::builder::{Builder, Routine};

/// The codes that the routine knows. A 0 ends its table.
pub const KNOWN_CODES: [u32; 6] = [
    40_123_455, 96_385_074, 73_513_537, 40_058_009, 59_012_344, 87_121_001,
];

const PLACE: u32 = 8;
const LAST_PLACE: u32 = 9;
const CODE: u32 = 10;
const OWN: u32 = 12;
const ROW: u32 = 13;
const KNOWN: u32 = 14;
const READ: u32 = 15;

pub fn barcode() -> Result<Routine, String> {
    let mut b = Builder::new(ROUTINE_PAGE);
    sort_packs(&mut b);
    b.heading("Barcode routine: say that the belt is done");
    b.op(addi(REPORT, 0, REPORT_DONE as i32), "");
    b.op(trap(), "");
    known_codes(&mut b);
    b.finish()
}

/// Reads the belt's places up to the first 0 and reports each pack; then goes
/// on behind.
pub fn sort_packs(b: &mut Builder) {
    next_pack(b);
    find_code(b);
    report_pack(b);
}

fn next_pack(b: &mut Builder) {
    b.heading("Barcode routine: the next pack's code, or 0 behind the last");
    b.constant(PLACE, BELT_PAGE, "the first belt register");
    b.constant(LAST_PLACE, BELT_PAGE + 1024, "behind the last one");
    b.constant(OWN, OWN_PAGE, "the routine's own words");
    b.label("next");
    b.op(ldw(CODE, PLACE, 0), "");
    b.branch(beq, CODE, 0, "sorted", "no pack lies there");
    b.op(ldw(READ, OWN, OWN_PACKS as i32), "");
    b.op(addi(READ, READ, 1), "");
    b.op(stw(READ, OWN, OWN_PACKS as i32), "packs read so far");
}

fn find_code(b: &mut Builder) {
    b.heading("Barcode routine: is the code in the table?");
    b.address(ROW, "known_codes", "");
    b.label("compare");
    b.op(ldw(KNOWN, ROW, 0), "");
    b.branch(beq, KNOWN, 0, "reject", "the table's end");
    b.branch(beq, KNOWN, CODE, "match", "");
    b.op(addi(ROW, ROW, 4), "");
    b.jump(j, "compare", "");
}

fn report_pack(b: &mut Builder) {
    b.heading("Barcode routine: report the pack");
    b.label("match");
    b.op(addi(REPORT, 0, REPORT_MATCH as i32), "");
    b.jump(j, "tell", "");
    b.label("reject");
    b.op(addi(REPORT, 0, REPORT_REJECT as i32), "");
    b.label("tell");
    b.op(trap(), "");
    b.op(addi(PLACE, PLACE, 4), "");
    b.branch(bltu, PLACE, LAST_PLACE, "next", "");
    b.label("sorted");
}

pub fn known_codes(b: &mut Builder) {
    b.heading("Table of known codes");
    b.label("known_codes");
    for code in KNOWN_CODES {
        b.data(code, &format!("{code:08}"));
    }
    b.data(0, "end");
}
