//! Logic, shift and constant instructions (manual 3.3.17 to 3.3.31).

use crate::common::Rig;
use eco32_reference::asm::*;

type Register = fn(u32, u32, u32) -> u32;
type Immediate = fn(u32, u32, i32) -> u32;

const MAX: u32 = 0x7FFF_FFFF;
const MIN: u32 = 0x8000_0000;
const ONES: u32 = 0xFFFF_FFFF;

#[test]
fn logic_of_registers() {
    let table: [(&str, Register, u32, u32, u32); 12] = [
        ("AND", and, 0xF0F0_F0F0, 0xFF00_FF00, 0xF000_F000),
        ("AND", and, ONES, MIN, MIN),
        ("AND", and, 0, ONES, 0),
        ("OR", or, 0xF0F0_F0F0, 0x0F0F_0000, 0xFFFF_F0F0),
        ("OR", or, MIN, 1, 0x8000_0001),
        ("OR", or, 0, 0, 0),
        ("XOR", xor, ONES, 0x0F0F_0F0F, 0xF0F0_F0F0),
        ("XOR", xor, MIN, MIN, 0),
        ("XOR", xor, MIN, MAX, ONES),
        ("XNOR", xnor, ONES, 0x0F0F_0F0F, 0x0F0F_0F0F),
        ("XNOR", xnor, 0, 0, ONES),
        ("XNOR", xnor, MIN, MAX, 0),
    ];
    for (name, op, x, y, result) in table {
        let what = format!("{name} {x:08X} {y:08X}");
        let rig = Rig::with_rom(&[op(3, 1, 2) | 0x7FF]).set(1, x).set(2, y);
        rig.completes(&what, |cpu| cpu.registers[3] = result);
        let rig = Rig::with_rom(&[op(0, 1, 2)]).set(1, x).set(2, y);
        rig.completes(&what, |_| {});
    }
}

#[test]
fn logic_with_zero_extended_immediate() {
    let table: [(&str, Immediate, u32, i32, u32); 11] = [
        ("ANDI", andi, ONES, 0xFFFF, 0x0000_FFFF),
        ("ANDI", andi, 0x1234_5678, 0x8000, 0),
        ("ANDI", andi, 0xFFFF_8000, 0x8001, 0x0000_8000),
        ("ORI", ori, 0xF0F0_0000, 0x8001, 0xF0F0_8001),
        ("ORI", ori, 0, 0xFFFF, 0x0000_FFFF),
        ("XORI", xori, ONES, 0xFFFF, 0xFFFF_0000),
        ("XORI", xori, 0, 0x8000, 0x0000_8000),
        ("XORI", xori, MIN, 1, 0x8000_0001),
        ("XNORI", xnori, 0, 0xFFFF, 0xFFFF_0000),
        ("XNORI", xnori, ONES, 0xFFFF, 0x0000_FFFF),
        ("XNORI", xnori, 0, 0, ONES),
    ];
    for (name, op, x, y, result) in table {
        let what = format!("{name} {x:08X} {y:04X}");
        let rig = Rig::with_rom(&[op(3, 1, y)]).set(1, x);
        rig.completes(&what, |cpu| cpu.registers[3] = result);
        let rig = Rig::with_rom(&[op(0, 1, y)]).set(1, x);
        rig.completes(&what, |_| {});
    }
}

#[test]
fn shifts_count_modulo_32() {
    let table: [(&str, Register, Immediate, u32, u32, u32); 24] = [
        ("SLL", sll, slli, MAX, 0, MAX),
        ("SLL", sll, slli, 1, 31, MIN),
        ("SLL", sll, slli, 1, 32, 1),
        ("SLL", sll, slli, 1, 33, 2),
        ("SLL", sll, slli, ONES, 4, 0xFFFF_FFF0),
        ("SLL", sll, slli, MIN, 1, 0),
        ("SLL", sll, slli, 1, ONES, MIN),
        ("SLR", slr, slri, MIN, 0, MIN),
        ("SLR", slr, slri, MIN, 31, 1),
        ("SLR", slr, slri, MIN, 32, MIN),
        ("SLR", slr, slri, MIN, 33, 0x4000_0000),
        ("SLR", slr, slri, ONES, 4, 0x0FFF_FFFF),
        ("SLR", slr, slri, ONES, ONES, 1),
        ("SLR", slr, slri, 1, 1, 0),
        ("SAR", sar, sari, MIN, 0, MIN),
        ("SAR", sar, sari, MIN, 31, ONES),
        ("SAR", sar, sari, MIN, 32, MIN),
        ("SAR", sar, sari, MIN, 33, 0xC000_0000),
        ("SAR", sar, sari, 0xF000_0000, 4, 0xFF00_0000),
        ("SAR", sar, sari, MIN, ONES, ONES),
        ("SAR", sar, sari, MAX, 30, 1),
        ("SAR", sar, sari, MAX, 31, 0),
        ("SAR", sar, sari, 1, 1, 0),
        ("SAR", sar, sari, ONES, 5, ONES),
    ];
    for (name, op, op_immediate, x, count, result) in table {
        let what = format!("{name} {x:08X} {count}");
        let rig = Rig::with_rom(&[op(3, 1, 2) | 0x7FF])
            .set(1, x)
            .set(2, count);
        rig.completes(&what, |cpu| cpu.registers[3] = result);
        let what = format!("{name}I {x:08X} {count}");
        let rig = Rig::with_rom(&[op_immediate(3, 1, count as i32)]).set(1, x);
        rig.completes(&what, |cpu| cpu.registers[3] = result);
        let rig = Rig::with_rom(&[op(0, 1, 2)]).set(1, x).set(2, count);
        rig.completes(&what, |_| {});
        let rig = Rig::with_rom(&[op_immediate(0, 1, count as i32)]).set(1, x);
        rig.completes(&what, |_| {});
    }
}

#[test]
fn ldhi_takes_the_immediate_alone() {
    let table = [
        (0x1234, 0x1234_0000),
        (0xFFFF, 0xFFFF_0000),
        (0x8000, MIN),
        (1, 0x0001_0000),
        (0, 0),
    ];
    for (y, result) in table {
        for x in [0, 1, 3, 31] {
            let rig = Rig::with_rom(&[ldhi(3, y) | x << 21])
                .set(1, ONES)
                .set(3, ONES)
                .set(31, MAX);
            rig.completes("LDHI", |cpu| cpu.registers[3] = result);
        }
    }
    Rig::with_rom(&[ldhi(0, 0xFFFF)]).completes("LDHI to R0", |_| {});
}

#[test]
fn a_register_may_be_operand_and_result() {
    let rig = Rig::with_rom(&[sub(1, 1, 2)]).set(1, 5).set(2, 7);
    rig.completes("r = x", |cpu| cpu.registers[1] = 0xFFFF_FFFE);
    let rig = Rig::with_rom(&[sub(2, 1, 2)]).set(1, 5).set(2, 7);
    rig.completes("r = y", |cpu| cpu.registers[2] = 0xFFFF_FFFE);
    let rig = Rig::with_rom(&[add(31, 31, 31)]).set(31, 0x8000_0001);
    rig.completes("r = x = y = 31", |cpu| cpu.registers[31] = 2);
    // R0 as an operand reads 0.
    let rig = Rig::with_rom(&[sub(3, 0, 1)]).set(1, 1);
    rig.completes("x = 0", |cpu| cpu.registers[3] = ONES);
}
