//! Computation instructions (manual 3.3).

use crate::common::Rig;
use eco32_reference::asm::*;

type Register = fn(u32, u32, u32) -> u32;
type Immediate = fn(u32, u32, i32) -> u32;

const MAX: u32 = 0x7FFF_FFFF;
const MIN: u32 = 0x8000_0000;
const ONES: u32 = 0xFFFF_FFFF;

/// Checks R3 = R1 op R2, with no other change.
fn register_form(name: &str, op: Register, table: &[(u32, u32, u32)]) {
    for &(x, y, result) in table {
        let what = format!("{name} {x:08X} {y:08X}");
        let rig = Rig::with_rom(&[op(3, 1, 2)]).set(1, x).set(2, y);
        rig.completes(&what, |cpu| cpu.registers[3] = result);
        // bits 10..0 are ignored
        let rig = Rig::with_rom(&[op(3, 1, 2) | 0x7FF]).set(1, x).set(2, y);
        rig.completes(&what, |cpu| cpu.registers[3] = result);
        // R0 stays 0
        let rig = Rig::with_rom(&[op(0, 1, 2)]).set(1, x).set(2, y);
        rig.completes(&what, |_| {});
    }
}

/// Checks R3 = R1 op immediate, with no other change.
fn immediate_form(name: &str, op: Immediate, table: &[(u32, i32, u32)]) {
    for &(x, y, result) in table {
        let what = format!("{name} {x:08X} {y:04X}");
        let rig = Rig::with_rom(&[op(3, 1, y)]).set(1, x);
        rig.completes(&what, |cpu| cpu.registers[3] = result);
        // The field r is 20..16 also where bits 15..11 are set.
        let rig = Rig::with_rom(&[op(3, 3, y)]).set(3, x);
        rig.completes(&what, |cpu| cpu.registers[3] = result);
        let rig = Rig::with_rom(&[op(0, 1, y)]).set(1, x);
        rig.completes(&what, |_| {});
    }
}

#[test]
fn sums_and_differences() {
    register_form(
        "ADD",
        add,
        &[
            (0, 0, 0),
            (ONES, 1, 0),
            (1, MAX, MIN),
            (MIN, MIN, 0),
            (ONES, ONES, 0xFFFF_FFFE),
        ],
    );
    immediate_form(
        "ADDI",
        addi,
        &[
            (0, 5, 5),
            (0, 0xFFFF, ONES),
            (1, 0xFFFF, 0),
            (MAX, 1, MIN),
            (MIN, 0x8000, 0x7FFF_8000),
            (ONES, 0x7FFF, 0x0000_7FFE),
        ],
    );
    register_form(
        "SUB",
        sub,
        &[
            (5, 3, 2),
            (0, 1, ONES),
            (MIN, 1, MAX),
            (MAX, ONES, MIN),
            (ONES, ONES, 0),
        ],
    );
    immediate_form(
        "SUBI",
        subi,
        &[
            (5, 3, 2),
            (0, 1, ONES),
            (0, 0xFFFF, 1),
            (MIN, 1, MAX),
            (MAX, 0xFFFF, MIN),
            (0, 0x8000, 0x0000_8000),
        ],
    );
}

#[test]
fn products() {
    let both = [
        (3, 5, 15),
        (ONES, 5, 0xFFFF_FFFB),
        (MIN, ONES, MIN),
        (MAX, MAX, 1),
        (MIN, 2, 0),
        (0x0001_0000, 0x0001_0000, 0),
        (ONES, ONES, 1),
        (MAX, 0, 0),
    ];
    register_form("MUL", mul, &both);
    register_form("MULU", mulu, &both);
    immediate_form(
        "MULI",
        muli,
        &[
            (3, 5, 15),
            (7, 0xFFFF, 0xFFFF_FFF9),
            (0x0001_0000, 0x8000, MIN),
            (MIN, 0xFFFF, MIN),
            (2, 0x8000, 0xFFFF_0000),
        ],
    );
    immediate_form(
        "MULUI",
        mului,
        &[
            (3, 5, 15),
            (7, 0xFFFF, 0x0006_FFF9),
            (0x0001_0000, 0x8000, MIN),
            (ONES, 0xFFFF, 0xFFFF_0001),
            (2, 0x8000, 0x0001_0000),
            (MIN, 1, MIN),
        ],
    );
}

#[test]
fn signed_quotients_and_remainders() {
    const M7: u32 = 0xFFFF_FFF9;
    const M3: u32 = 0xFFFF_FFFD;
    const M2: u32 = 0xFFFF_FFFE;
    register_form(
        "DIV",
        div,
        &[
            (7, 2, 3),
            (M7, 2, M3),
            (7, M2, M3),
            (M7, M2, 3),
            (MIN, ONES, MIN),
            (MIN, 1, MIN),
            (MAX, ONES, 0x8000_0001),
            (1, MIN, 0),
            (MIN, MIN, 1),
            (0, 5, 0),
        ],
    );
    immediate_form(
        "DIVI",
        divi,
        &[
            (7, 2, 3),
            (M7, 2, M3),
            (7, 0xFFFE, M3),
            (MIN, 0xFFFF, MIN),
            (0x0001_0000, 0x8000, M2),
            (0, 0xFFFF, 0),
        ],
    );
    register_form(
        "REM",
        rem,
        &[
            (7, 2, 1),
            (M7, 2, ONES),
            (7, M2, 1),
            (M7, M2, ONES),
            (MIN, ONES, 0),
            (MIN, 3, M2),
            (MAX, MIN, MAX),
            (0, 5, 0),
        ],
    );
    immediate_form(
        "REMI",
        remi,
        &[
            (7, 2, 1),
            (M7, 2, ONES),
            (7, 0xFFFE, 1),
            (MIN, 0xFFFF, 0),
            (M7, 0x8000, M7),
        ],
    );
}

#[test]
fn unsigned_quotients_and_remainders() {
    register_form(
        "DIVU",
        divu,
        &[
            (7, 2, 3),
            (ONES, 2, MAX),
            (MIN, ONES, 0),
            (ONES, MIN, 1),
            (ONES, 1, ONES),
            (0xFFFF_FFF9, 2, 0x7FFF_FFFC),
        ],
    );
    immediate_form(
        "DIVUI",
        divui,
        &[
            (7, 2, 3),
            (ONES, 0xFFFF, 0x0001_0001),
            (0x0001_0000, 0x8000, 2),
            (7, 0xFFFE, 0),
            (0xFFFF_FFF9, 2, 0x7FFF_FFFC),
        ],
    );
    register_form(
        "REMU",
        remu,
        &[
            (7, 2, 1),
            (0xFFFF_FFF9, 2, 1),
            (MIN, ONES, MIN),
            (ONES, MIN, MAX),
            (5, 7, 5),
        ],
    );
    immediate_form(
        "REMUI",
        remui,
        &[
            (7, 2, 1),
            (7, 0xFFFE, 7),
            (0x0001_0000, 0xFFFF, 1),
            (ONES, 0xFFFF, 0),
            (0xFFFF_FFF9, 2, 1),
        ],
    );
}

#[test]
fn division_by_zero_writes_nothing() {
    let forms = [
        div(3, 1, 2),
        divu(3, 1, 2),
        rem(3, 1, 2),
        remu(3, 1, 2),
        divi(3, 1, 0),
        divui(3, 1, 0),
        remi(3, 1, 0),
        remui(3, 1, 0),
    ];
    for word in forms {
        for x in [0, 1, MAX, MIN, ONES] {
            let rig = Rig::with_rom(&[word]).set(1, x).set(3, 0x55);
            let what = format!("{word:08X}");
            rig.faults(&what, 19, 0x0013_0000, 0xE000_0004, |_| {});
        }
    }
    // Into R0 it faults all the same, in User Mode too.
    let rig = Rig::in_user_mode(div(0, 1, 0));
    rig.faults("to R0", 19, 0x0213_0000, 0xE000_0004, |_| {});
}
