//! The slot that served an access: of the last step of a run, and of a page
//! view (document 02, job 2).

use crate::common::{put, timer, Rig, TIMER, USER};
use eco32_reference::asm::*;
use eco32_reference::mmu::{Access, Found};
use eco32_reference::{host, page_view, write_record, Answer, Fault, Width};

/// Loads and stores of every width: of R3, by an address in R1.
const TRANSFERS: [fn(u32, u32, i32) -> u32; 8] = [ldw, ldh, ldhu, ldb, ldbu, stw, sth, stb];

const PAGE: u32 = 0x0000_5000;
/// Low word of an entry for the first frame of RAM, valid and writable.
const IN_RAM: u32 = 0x0000_0003;

/// Kernel Mode and User Mode with one word, R1 in PAGE and entries for PAGE.
fn rigs(word: u32, entries: &[(usize, u32)]) -> [Rig; 2] {
    [Rig::with_rom(&[word]), Rig::in_user_mode(word)].map(|mut rig| {
        for &(index, low) in entries {
            rig.map(index, PAGE, low);
        }
        rig.set(1, PAGE + 0x100)
    })
}

/// Makes one step and checks what it tells.
#[track_caller]
fn tells(mut rig: Rig, lines: u16, eid: u32, slot: u32) {
    let told = rig.stepped(lines);
    assert_eq!((told.eid, told.slot), (eid, slot));
}

#[test]
fn a_lookup_answers_its_slot() {
    let mut rig = Rig::new();
    rig.map(9, PAGE, 0x0123_4003);
    let look = |address| rig.cpu.translate(address, Width::Byte, Access::Load, false);
    let found = |physical, slot| Ok(Found { physical, slot });
    assert_eq!(look(PAGE + 0x123), found(0x0123_4123, 9));
    assert_eq!(look(0xC000_0000), found(0x0000_0000, 32));
    assert_eq!(look(0xFFFF_FFFF), found(0x3FFF_FFFF, 32));
    assert_eq!(look(0xBFFF_FFFF), Err(Fault::TlbMiss(0xBFFF_FFFF)));
}

#[test]
fn every_slot_serves_every_width() {
    for transfer in TRANSFERS {
        // Entry 31 is that of the code in User Mode.
        for slot in 0..31 {
            for rig in rigs(transfer(3, 1, 0), &[(slot, IN_RAM)]) {
                tells(rig, 0, 32, slot as u32);
            }
        }
        let [kernel, _] = rigs(transfer(3, 1, 0), &[(31, IN_RAM)]);
        tells(kernel, 0, 32, 31);
    }
}

#[test]
fn the_lower_of_two_slots() {
    for transfer in TRANSFERS {
        for (lower, higher) in [(0, 1), (0, 30), (7, 19), (29, 30)] {
            let word = transfer(3, 1, 0);
            for rig in rigs(word, &[(lower, IN_RAM), (higher, 0x0000_1003)]) {
                tells(rig, 0, 32, lower as u32);
            }
            // The lower one is used even if it is not valid.
            for rig in rigs(word, &[(lower, 0), (higher, IN_RAM)]) {
                tells(rig, 0, 23, 33);
            }
        }
    }
}

/// The entries at reset have the page of C0000000, and serve none.
#[test]
fn a_direct_mapped_address() {
    for transfer in TRANSFERS {
        for address in [0xC000_0000, 0xC000_1000, 0xE000_0100] {
            let rig = Rig::with_rom(&[transfer(3, 1, 0)]).set(1, address);
            tells(rig, 0, 32, 32);
        }
    }
}

#[test]
fn stores_to_rom_belt_and_timer() {
    for frame in [0x2000_0003, 0x3050_0003, 0x3000_0003] {
        for rig in rigs(stw(3, 1, -0x100), &[(13, frame)]) {
            tells(rig, 0, 32, 13);
        }
    }
    for word in [sth(3, 1, 0), stb(3, 1, 0)] {
        for rig in rigs(word, &[(13, 0x2000_0003)]) {
            tells(rig, 0, 32, 13);
        }
    }
    for address in [0xE000_0100, 0xF050_0100, TIMER, TIMER + 4] {
        tells(Rig::with_rom(&[stw(3, 1, 0)]).set(1, address), 0, 32, 32);
    }
}

/// Faults 16, 21 and 23 to 25, and 22 of the stores.
#[test]
fn a_faulting_access_has_none() {
    for (n, transfer) in TRANSFERS.into_iter().enumerate() {
        let word = transfer(3, 1, 0);
        let writing = if n < 5 { (32, 4) } else { (22, 33) };
        // An entry without memory, an invalid one, and one that is read-only.
        for (low, (eid, slot)) in [(0x0000_2003, (16, 33)), (2, (23, 33)), (1, writing)] {
            for rig in rigs(word, &[(4, low)]) {
                tells(rig, 0, eid, slot);
            }
        }
        let [kernel, user] = rigs(word, &[]);
        tells(kernel.clone(), 0, 21, 33);
        tells(user.clone(), 0, 21, 33);
        tells(kernel.set(1, 0xC000_2000), 0, 16, 33);
        for address in [0x8000_0000, 0xC000_0000] {
            tells(user.clone().set(1, address), 0, 25, 33);
        }
        let narrow = matches!(n, 3 | 4 | 7);
        for rig in rigs(transfer(3, 1, 1), &[(4, IN_RAM)]) {
            let (eid, slot) = if narrow { (32, 4) } else { (24, 33) };
            tells(rig, 0, eid, slot);
        }
    }
}

#[test]
fn a_step_without_an_access_has_none() {
    for opcode in (0..64).filter(|opcode| !(0x30..=0x37).contains(opcode)) {
        for mut rig in rigs(opcode << 26, &[(4, IN_RAM)]) {
            assert_eq!(rig.stepped(0).slot, 33, "{opcode:02X}");
        }
    }
    tells(Rig::with_rom(&[trap()]), 0, 20, 33);
    tells(Rig::with_rom(&[div(3, 1, 0)]), 0, 19, 33);
    tells(Rig::in_user_mode(tbwr()), 0, 18, 33);
    tells(Rig::with_rom(&[0xFC00_0000]), 0, 17, 33);
}

#[test]
fn an_interrupt_in_place_of_an_access_has_none() {
    for transfer in TRANSFERS {
        for mut rig in rigs(transfer(3, 1, 0), &[(4, IN_RAM)]) {
            rig.cpu.psw |= 0x0080_FFFF;
            tells(rig.clone(), 0x0020, 5, 33);
            rig.cpu.timer = timer(0, 0, 3);
            tells(rig, 0, 14, 33);
        }
    }
}

#[test]
fn a_faulting_fetch_has_none() {
    let table = [
        (0xC000_2000, 0, 16),
        (0x0000_6000, 0, 21),
        (0x0000_7000, 0, 23),
        (0xE000_0001, 0, 24),
        (0xE000_0000, USER, 25),
    ];
    for (pc, psw, eid) in table {
        let mut rig = Rig::with_rom(&[ldw(3, 0, 0x7000)]);
        rig.map(7, 0x0000_7000, 0);
        rig.cpu.pc = pc;
        rig.cpu.psw = psw;
        tells(rig, 0, eid, 33);
    }
}

/// The code stands behind entry 31, or is direct-mapped.
#[test]
fn the_slot_is_not_that_of_the_fetch() {
    for slot in [0, 12, 30] {
        for rig in rigs(ldw(3, 1, 0), &[(slot, IN_RAM)]) {
            tells(rig, 0, 32, slot as u32);
        }
    }
    tells(Rig::in_user_mode(stw(3, 0, 0x1100)), 0, 32, 31);
    let mut kernel = Rig::in_user_mode(stw(3, 1, 0)).set(1, 0xC000_0100);
    kernel.cpu.psw = 0;
    tells(kernel, 0, 32, 32);
}

/// A load over its base, and a store over its own word.
#[test]
fn an_access_that_leaves_no_trace_of_its_address() {
    for mut rig in rigs(ldw(1, 1, 0), &[(6, IN_RAM)]) {
        put(&mut rig.ram, 0x100, 0xC000_0000);
        tells(rig, 0, 32, 6);
    }
    tells(Rig::in_user_mode(stw(3, 0, 0x1000)), 0, 32, 31);
}

/// Five steps: slot 6, slot 2, none, direct-mapped, and a trap.
fn program() -> Rig {
    let words = [
        ldw(3, 1, 0),
        sth(3, 1, 0x1000),
        addi(3, 3, 1),
        stb(3, 2, 0),
        trap(),
    ];
    let mut rig = Rig::with_rom(&words)
        .set(1, PAGE + 0x100)
        .set(2, 0xC000_0200);
    rig.map(6, PAGE, IN_RAM);
    rig.map(2, PAGE + 0x1000, IN_RAM);
    // The service stores by slot 6.
    rig.cpu.psw = 0x0800_0000;
    put(&mut rig.ram, 4, stw(3, 1, 0));
    rig
}

fn answer(steps: u32, eid: u32, slot: u32) -> Answer {
    Answer {
        refusal: 0,
        steps,
        eid,
        slot,
    }
}

#[test]
fn a_run_answers_the_slot_of_its_last_step() {
    let slots = [33, 6, 2, 33, 32, 33, 6, 33];
    for (steps, slot) in slots.into_iter().enumerate() {
        let mut rig = program();
        let run = rig.cpu.clone().run(&mut rig.memory(), steps as u64, 0);
        assert_eq!(run, answer(steps as u32, 32, slot));
    }
}

#[test]
fn a_run_that_an_exception_ends_has_none() {
    let table = [(0, 0, 32, 33), (1, 1, 32, 6), (2, 2, 32, 2), (3, 3, 32, 33)];
    let ended = [(4, 4, 32, 32), (5, 5, 20, 33), (6, 5, 20, 33)];
    for (wanted, steps, eid, slot) in table.into_iter().chain(ended) {
        let mut rig = program();
        let mut machine = rig.cpu.clone();
        let run = machine.run_to_exception(&mut rig.memory(), wanted, 0);
        assert_eq!(run, answer(steps, eid, slot));
    }
    // By a fault of the second access.
    let mut rig = program();
    rig.map(2, PAGE + 0x1000, 0x0000_0001);
    let mut machine = rig.cpu.clone();
    let run = machine.run_to_exception(&mut rig.memory(), 9, 0);
    assert_eq!(run, answer(2, 22, 33));
}

fn record_of(rig: &Rig) -> Vec<u8> {
    let mut record = vec![0; 424];
    assert_eq!(write_record(&rig.cpu, &mut record), 0);
    record
}

/// A load is the first step; a refused run does not make it.
#[test]
fn a_refused_run_has_none() {
    let mut rig = program();
    let record = record_of(&rig);
    for run in [host::run, host::run_to_exception] {
        for refusal in 0..8 {
            let mut machine = record.clone();
            let (mut ram, mut belt, mut wanted) = (8192, 1024, 1);
            let mut rom = &rig.rom[..];
            match refusal {
                1 => ram = 4097,
                2 => rom = &rom[..4095],
                3 => belt = 1020,
                4 => machine.truncate(414),
                5 => machine[129] = 1,
                6 => machine[413] = 3,
                7 => wanted = 1_000_001,
                _ => {}
            }
            let (ram, belt) = (&mut rig.ram[..ram], &mut rig.belt[..belt]);
            let run = run(&mut machine, ram, rom, belt, wanted, 0);
            match refusal {
                0 => assert_eq!(run, answer(1, 32, 6)),
                _ => assert_eq!(run, Answer::refused(refusal)),
            }
        }
    }
    assert_eq!(Answer::refused(7).slot, 33);
}

#[test]
fn a_page_view_answers_the_slot_of_its_lookup() {
    for slot in 0..32 {
        let mut rig = Rig::new();
        rig.map(slot, PAGE, 0x0000_1001);
        // Behind it another entry of the page, and its mode does not count.
        if slot < 31 {
            rig.map(31, PAGE, IN_RAM);
        }
        rig.cpu.psw = USER;
        let view = page_view(&rig.ram, &rig.cpu, 5);
        assert_eq!(
            (view.refusal, view.slot, view.offset),
            (0, slot as u32, 4096)
        );
        let view = host::page_view(&rig.ram, &record_of(&rig), 5);
        assert_eq!(
            (view.refusal, view.slot, view.offset),
            (0, slot as u32, 4096)
        );
    }
    let rig = Rig::new();
    for page in [0xC0000, 0xC0001] {
        assert_eq!(page_view(&rig.ram, &rig.cpu, page).slot, 32);
        assert_eq!(host::page_view(&rig.ram, &record_of(&rig), page).slot, 32);
    }
}

/// By a miss, an invalid entry, no RAM behind it, the number, the RAM and the
/// record.
#[test]
fn a_refused_page_view_has_none() {
    let mut rig = Rig::new();
    rig.map(3, 0x0000_6000, 0x0000_0002);
    rig.map(4, 0x0000_7000, 0x2000_0003);
    let record = record_of(&rig);
    for page in [5, 6, 7, 0xC0002, 0xE0000, 0x10_0000, u64::MAX] {
        let view = page_view(&rig.ram, &rig.cpu, page);
        assert_eq!((view.refusal, view.slot), (8, 33));
        let view = host::page_view(&rig.ram, &record, page);
        assert_eq!((view.refusal, view.slot), (8, 33));
    }
    let view = page_view(&rig.ram[..4095], &rig.cpu, 0xC0000);
    assert_eq!((view.refusal, view.slot), (1, 33));
    let mut unfit = rig.cpu.clone();
    unfit.replacement = 3;
    let view = page_view(&rig.ram, &unfit, 0xC0000);
    assert_eq!((view.refusal, view.slot), (6, 33));
    for (at, byte, refusal) in [(0, 2, 5), (413, 3, 6)] {
        let mut record = record.clone();
        record[at] = byte;
        let view = host::page_view(&rig.ram, &record, 0xC0000);
        assert_eq!((view.refusal, view.slot), (refusal, 33));
    }
    let view = host::page_view(&rig.ram, &record[..413], 0xC0000);
    assert_eq!((view.refusal, view.slot), (4, 33));
}
