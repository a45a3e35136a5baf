//! Choice of the next instruction of a random stream, by the state in which
//! it will be executed, so that most streams run on.

use super::access::width_of;
use super::machines::{direct_address, executable, mapped_address, operand};
use super::mnemonics::{ignored_bits, opcodes, Group, MVFS, MVTS, RFX};
use super::numbers::Numbers;
use super::scene::Scene;
use crate::asm::{addi, ldhi, long_offset, three_registers, two_registers};
use crate::processor::PSW_UC;

/// A register to write: most often a low one, so that addresses stay.
fn destination(numbers: &mut Numbers) -> u32 {
    if numbers.percent(70) {
        numbers.below(10)
    } else {
        numbers.below(32)
    }
}

/// The next instruction, now and then with bits set that have no effect.
pub fn instruction(scene: &Scene, numbers: &mut Numbers) -> u32 {
    let word = plain_instruction(scene, numbers);
    if numbers.percent(25) {
        word | numbers.word() & ignored_bits(word >> 26)
    } else {
        word
    }
}

fn plain_instruction(scene: &Scene, numbers: &mut Numbers) -> u32 {
    let user = scene.cpu.user_mode();
    if !user && returns_to_user(scene) && numbers.percent(25) {
        return RFX << 26;
    }
    match numbers.below(100) {
        0..=35 => compute(scene, numbers),
        36..=61 => transfer(scene, numbers),
        62..=73 => branch(numbers),
        74..=78 => long_jump(numbers),
        79..=83 => indirect(scene, numbers),
        84..=85 => numbers.pick(&[0x1E, 0x2E, 0x3E, 0x3F]) << 26 | numbers.word() >> 6,
        86 => numbers.word(),
        _ if user && numbers.percent(85) => transfer(scene, numbers),
        _ => system(scene, numbers),
    }
}

fn compute(scene: &Scene, numbers: &mut Numbers) -> u32 {
    let opcode = numbers.below(0x20);
    let (x, y, r) = (numbers.below(32), numbers.below(32), destination(numbers));
    match opcode {
        0x1E => ldhi(r, direct_address(scene, numbers) as i32 >> 16),
        // Most divisions by 0 are left out.
        0x08..=0x0F
            if opcode.is_multiple_of(2) && scene.cpu.register(y) == 0 && numbers.percent(80) =>
        {
            three_registers(0x02, x, y, r)
        }
        _ if opcode.is_multiple_of(2) => three_registers(opcode, x, y, r),
        _ => two_registers(opcode, x, r, operand(numbers) as i32),
    }
}

/// An address that the mode may use, or now and then any.
fn target(scene: &Scene, numbers: &mut Numbers) -> u32 {
    let user = scene.cpu.user_mode();
    let limit = if user { 0x8000_0000 } else { 0xC000_0000 };
    match numbers.below(10) {
        0 => numbers.pick(&[
            0x0000_2FFC,
            0x8000_0000,
            0xC000_2000,
            0xE000_1000,
            0xF050_0400,
            0xF000_0008,
            0xF00F_FFFC,
        ]),
        1..=4 if !user => direct_address(scene, numbers),
        _ => mapped_address(scene, numbers, limit).unwrap_or(0x0000_3000),
    }
}

/// A load or store by a register near its target; where none is near, LDHI
/// makes one.
fn transfer(scene: &Scene, numbers: &mut Numbers) -> u32 {
    let opcode = 0x30 + numbers.below(8);
    let bytes = width_of(opcode).bytes() as u32;
    let inside = if numbers.percent(95) {
        numbers.below(4) & !(bytes - 1)
    } else {
        numbers.below(4)
    };
    let address = target(scene, numbers) + inside;
    let offset = |number: &u32| address.wrapping_sub(scene.cpu.register(*number)) as i32;
    let near: Vec<u32> = (0..32)
        .filter(|number| (-0x8000..0x8000).contains(&offset(number)))
        .collect();
    let register = destination(numbers);
    if near.is_empty() {
        return if numbers.percent(70) {
            ldhi(16 + numbers.below(6), (address >> 16) as i32)
        } else {
            two_registers(opcode, numbers.below(32), register, operand(numbers) as i32)
        };
    }
    let base = numbers.pick(&near);
    two_registers(opcode, base, register, offset(&base))
}

/// A branch by a few words, rarely by any offset.
fn branch(numbers: &mut Numbers) -> u32 {
    let opcode = 0x20 + numbers.below(10);
    let offset = if numbers.percent(96) {
        numbers.below(16) as i32 - 6
    } else {
        numbers.word() as i32
    };
    let (x, y) = (numbers.below(12), numbers.below(12));
    two_registers(opcode, x, y, offset)
}

fn long_jump(numbers: &mut Numbers) -> u32 {
    let offset = if numbers.percent(90) {
        numbers.below(64) as i32 - 24
    } else {
        numbers.word() as i32
    };
    long_offset(numbers.pick(&[0x2A, 0x2C]), offset)
}

/// JR or JALR through a register with code behind it, if there is one.
fn indirect(scene: &Scene, numbers: &mut Numbers) -> u32 {
    let user = scene.cpu.user_mode();
    let fit: Vec<u32> = (0..32)
        .filter(|&number| executable(scene, scene.cpu.register(number), user))
        .collect();
    let register = if fit.is_empty() || numbers.percent(4) {
        if numbers.percent(80) {
            return compute(scene, numbers);
        }
        numbers.below(32)
    } else {
        numbers.pick(&fit)
    };
    two_registers(numbers.pick(&[0x2B, 0x2D]), register, 0, 0)
}

fn system(scene: &Scene, numbers: &mut Numbers) -> u32 {
    let privileged: Vec<u32> = opcodes(Group::Privileged).collect();
    let opcode = numbers.pick(&privileged);
    match opcode {
        RFX => back(scene, numbers),
        MVFS => two_registers(opcode, 0, destination(numbers), special(numbers)),
        // A move to the PSW ends many streams, so it is rarer.
        MVTS => {
            let number = special(numbers);
            let to = if number == 0 && numbers.percent(50) {
                3
            } else {
                number
            };
            two_registers(opcode, 0, numbers.below(32), to)
        }
        _ => opcode << 26,
    }
}

fn special(numbers: &mut Numbers) -> i32 {
    if numbers.percent(92) {
        numbers.below(6) as i32
    } else {
        numbers.word() as i32
    }
}

/// Whether RFX would go on in User Mode.
fn returns_to_user(scene: &Scene) -> bool {
    scene.cpu.psw << 1 & PSW_UC != 0 && executable(scene, scene.cpu.register(30), true)
}

/// RFX where it leads to code; else R30 moves on behind the instruction.
fn back(scene: &Scene, numbers: &mut Numbers) -> u32 {
    let popped = scene.cpu.psw << 1 & PSW_UC != 0;
    let fit = executable(scene, scene.cpu.register(30), popped);
    if scene.cpu.user_mode() || fit || numbers.percent(10) {
        RFX << 26
    } else {
        addi(30, 30, 4)
    }
}
