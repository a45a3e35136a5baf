//! Cases of the system instructions in Kernel Mode.

use super::mnemonics::{MVFS, MVTS, RFX, TBRI, TBS, TBWI, TBWR};
use super::numbers::Numbers;
use super::required::SPECIAL_NUMBERS;
use super::scene::Scene;
use super::turn::Turn;
use super::Sink;
use crate::asm::two_registers;
use crate::processor::{KEPT_HIGH, KEPT_INDEX, KEPT_LOW, PSW_UC};

pub fn cases(sink: &mut dyn Sink, turn: &mut Turn, numbers: &mut Numbers) {
    special_registers(sink, turn, numbers);
    searches(sink, turn, numbers);
    random_writes(sink, turn, numbers);
    indexed(sink, turn, numbers);
    returns(sink, turn, numbers);
}

fn fill_specials(scene: &mut Scene, numbers: &mut Numbers) {
    scene.cpu.tlb_index = numbers.word() & KEPT_INDEX;
    scene.cpu.entry_high = numbers.word() & KEPT_HIGH;
    scene.cpu.entry_low = numbers.word() & KEPT_LOW;
    scene.cpu.bad_address = numbers.word();
}

/// Moves from and to each number; all ones show the kept bits.
fn special_registers(sink: &mut dyn Sink, turn: &mut Turn, numbers: &mut Numbers) {
    for number in SPECIAL_NUMBERS {
        let z = number as i32;
        for register in [3, 3, 0] {
            let words = [two_registers(MVFS, 0, register, z), 0x0003_2000];
            let mut scene = turn.kernel(&words).set(3, numbers.word());
            fill_specials(&mut scene, numbers);
            scene.cpu.psw |= numbers.word() & 0x037F_FFFF;
            sink.quiet(&scene, 2);
        }
        for value in [0xFFFF_FFFF, 0xFFFF_FFFF, 0, numbers.word() & !PSW_UC] {
            let words = [two_registers(MVTS, 9, 3, z), two_registers(MVFS, 0, 4, z)];
            let mut scene = turn.kernel(&words).set(3, value);
            fill_specials(&mut scene, numbers);
            sink.quiet(&scene, 2);
        }
    }
    for number in [5, 6, 0x0104, 0x8001, 0x7FFF] {
        let words = [
            two_registers(MVTS, 0, 3, number),
            two_registers(MVFS, 0, 3, number),
        ];
        sink.quiet(&turn.kernel(&words).set(3, 0xFFFF_FFFF), 2);
    }
}

/// TBS with a match at each index, valid or not, doubled, and without one.
fn searches(sink: &mut dyn Sink, turn: &mut Turn, numbers: &mut Numbers) {
    for index in 0..32 {
        let mut scene = turn.kernel(&[TBS << 26]);
        fill_specials(&mut scene, numbers);
        let high = scene.cpu.entry_high;
        scene.map(index, high, numbers.word() & KEPT_LOW);
        sink.quiet(&scene, 1);
        scene.map((index + 7) % 32, high, numbers.word() & KEPT_LOW);
        sink.quiet(&scene, 1);
        scene.cpu.entry_high = high ^ 0x0000_1000 << numbers.below(20);
        sink.quiet(&scene, 1);
    }
    // The page of the entries at reset is found as well.
    let mut scene = turn.kernel(&[TBS << 26]);
    scene.cpu.entry_high = 0xC000_0000;
    sink.quiet(&scene, 1);
}

/// TBWR at each replacement index, then TBS for what it wrote, and TBWR again.
fn random_writes(sink: &mut dyn Sink, turn: &mut Turn, numbers: &mut Numbers) {
    for index in 4..32 {
        let mut scene = turn.kernel(&[TBWR << 26, TBS << 26, TBWR << 26]);
        fill_specials(&mut scene, numbers);
        scene.cpu.replacement = index;
        sink.quiet(&scene, 3);
    }
}

/// TBRI and TBWI at each index, bit 31 clear and set.
fn indexed(sink: &mut dyn Sink, turn: &mut Turn, numbers: &mut Numbers) {
    for index in 0..32 {
        for bit_31 in [0, 0x8000_0000] {
            let mut scene = turn.kernel(&[TBRI << 26]);
            fill_specials(&mut scene, numbers);
            scene.cpu.tlb_index = bit_31 | index;
            let (high, low) = (numbers.word() & KEPT_HIGH, numbers.word() & KEPT_LOW);
            if scene.cpu.tlb[index as usize].high == 0xC000_0000 {
                scene.map(index as usize, high, low);
            }
            sink.quiet(&scene, 1);
            let mut scene = turn.kernel(&[TBWI << 26, TBS << 26, TBRI << 26]);
            fill_specials(&mut scene, numbers);
            scene.cpu.tlb_index = bit_31 | index;
            sink.quiet(&scene, 3);
        }
    }
}

/// RFX from all contents of the PSW's stacks, refused in User Mode.
fn returns(sink: &mut dyn Sink, turn: &mut Turn, numbers: &mut Numbers) {
    for stacks in 0..64 {
        for _ in 0..2 {
            let kernel = stacks & 0o40 == 0;
            let mut scene = if kernel {
                turn.kernel(&[RFX << 26])
            } else {
                super::scene::Place::User.scene(&[RFX << 26])
            };
            scene.cpu.psw |= stacks << 21 | numbers.word() & 0x001F_FFFF;
            let target = numbers.pick(&[0xE000_0020, 0xC000_0020, 0x0000_2080, 0x8000_3001]);
            sink.quiet(&scene.set(30, target), 2);
        }
    }
}
