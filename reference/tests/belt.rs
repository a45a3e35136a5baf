//! The belt example: the simulator runs both images.

use crate::common::{get, moved, put, Numbers, Rig};
use eco32_reference::asm::{j, tbwi};
use eco32_reference::belt::barcode::KNOWN_CODES;
use eco32_reference::belt::layout::*;
use eco32_reference::belt::{ram, rom, Images};
use eco32_reference::builder::Builder;
use eco32_reference::{page_view, Processor, Timer, NO_EXCEPTION};
use std::process::Command;

const EXAMPLE: &str = concat!(env!("CARGO_MANIFEST_DIR"), "/../examples/belt");

fn images() -> Images {
    Images::build().unwrap()
}

fn honest() -> Vec<u8> {
    let images = images();
    rom(&images.kernel, &images.barcode).unwrap()
}

fn hostile() -> Vec<u8> {
    let images = images();
    rom(&images.kernel, &images.hostile).unwrap()
}

/// The packs of the example, one code on each line.
fn packs() -> Vec<u32> {
    let text = std::fs::read_to_string(format!("{EXAMPLE}/packs.txt")).unwrap();
    text.lines().map(|line| line.parse().unwrap()).collect()
}

/// The machine at reset with an image, RAM that was never cleared, and packs.
fn cell(rom: Vec<u8>, codes: &[u32]) -> Rig {
    let mut cell = Rig {
        cpu: Processor::reset(),
        ram: ram(),
        rom,
        belt: vec![0; 1024],
    };
    for (n, &code) in codes.iter().enumerate() {
        put(&mut cell.belt, 4 * n, code);
    }
    cell
}

/// An exception: after how many steps, its EID, R30, and Bad Address.
type Event = (u64, u32, u32, u32);

/// Steps until the kernel jumps to itself, with `look` before each step.
fn run_with(cell: &mut Rig, mut look: impl FnMut(&Rig)) -> Vec<Event> {
    let mut events = Vec::new();
    for step in 1..100_000 {
        look(cell);
        let before = cell.cpu.pc;
        let eid = cell.step();
        if eid != NO_EXCEPTION {
            events.push((step, eid, cell.cpu.registers[30], cell.cpu.bad_address));
        } else if cell.cpu.pc == before {
            return events;
        }
    }
    panic!("the kernel does not stop");
}

fn run(cell: &mut Rig) -> Vec<Event> {
    run_with(cell, |_| ())
}

fn frame(ram: &[u8], number: usize) -> &[u8] {
    &ram[number * FRAME_LENGTH..][..FRAME_LENGTH]
}

/// Packs and rejects, as the host reads them.
fn count(cell: &Rig) -> (u32, u32) {
    let view = page_view(&cell.ram, &cell.cpu, u64::from(COUNT_PAGE >> 12));
    assert_eq!((view.refusal, view.offset), (0, FRAME_LENGTH));
    (
        get(view.part, PACKS as usize),
        get(view.part, REJECTS as usize),
    )
}

fn kernel_word(cell: &Rig, at: u32) -> u32 {
    get(&cell.ram, at as usize)
}

/// Steps to the first machine in User Mode.
fn boot(cell: &mut Rig) {
    while !cell.cpu.user_mode() {
        cell.step();
    }
}

#[test]
fn packs_and_rejects_are_counted() {
    let full: Vec<u32> = (1..=256)
        .map(|n| if n % 3 == 0 { n } else { KNOWN_CODES[1] })
        .collect();
    let lists = [
        vec![],
        vec![KNOWN_CODES[5]],
        vec![KNOWN_CODES[0] + 1],
        KNOWN_CODES.to_vec(),
        vec![1, 2, 3, 0xFFFF_FFFF, 0x8000_0000],
        packs(),
        full,
    ];
    for codes in lists {
        let unknown = codes.iter().filter(|code| !KNOWN_CODES.contains(code));
        let wanted = (codes.len() as u32, unknown.count() as u32);
        for image in [honest(), hostile()] {
            let mut cell = cell(image, &codes);
            run(&mut cell);
            assert_eq!(count(&cell), wanted);
            assert_eq!(get(frame(&cell.ram, 2), OWN_PACKS as usize), wanted.0);
        }
    }
}

#[test]
fn the_barcode_routine_only_traps() {
    let codes = packs();
    let mut cell = cell(honest(), &codes);
    let events = run(&mut cell);
    assert_eq!(events.len(), codes.len() + 1);
    assert!(events.iter().all(|&(_, eid, _, _)| eid == 20));
    assert_eq!(kernel_word(&cell, OUTCOME), OUTCOME_DONE);
    assert_eq!(kernel_word(&cell, LOGGED), 0);
    for eid in 0..32 {
        let times = if eid == 20 { events.len() as u32 } else { 0 };
        assert_eq!(kernel_word(&cell, TALLY + 4 * eid), times, "EID {eid}");
    }
}

#[test]
fn each_attempt_ends_in_its_fault() {
    let codes = packs();
    let attempts = images().attempts;
    let mut cell = cell(hostile(), &codes);
    let events = run(&mut cell);
    assert_eq!(events.len(), codes.len() + attempts.len());
    assert_eq!(kernel_word(&cell, LOGGED), attempts.len() as u32);
    for (n, attempt) in attempts.iter().enumerate() {
        let (_, eid, address, bad_address) = events[codes.len() + n];
        assert_eq!(
            (eid, address),
            (attempt.eid, attempt.address),
            "{}",
            attempt.what
        );
        if let Some(wanted) = attempt.bad_address {
            assert_eq!(bad_address, wanted, "{}", attempt.what);
        }
        let entry = LOG + 16 * n as u32;
        assert_eq!(kernel_word(&cell, entry), eid);
        assert_eq!(kernel_word(&cell, entry + 4), address);
        assert_eq!(kernel_word(&cell, entry + 8), bad_address);
    }
    // Every fault of the manual is among them.
    assert!((16..=25).all(|eid| attempts.iter().any(|attempt| attempt.eid == eid)));
    assert_eq!(kernel_word(&cell, OUTCOME), OUTCOME_ENDED);
}

/// While the routine runs, nothing changes but its own frame: not the TLB, not
/// the special registers, not the count. The replacement index moves once with
/// each step. At the end the count is the honest one.
#[test]
fn the_count_is_untouched() {
    let mut cell = cell(hostile(), &packs());
    boot(&mut cell);
    let mut last: Option<Rig> = None;
    let mut attacked = false;
    run_with(&mut cell, |now| {
        if let Some(before) = last.take().filter(|before| before.cpu.user_mode()) {
            assert_eq!(before.cpu.tlb, now.cpu.tlb);
            assert_eq!(now.cpu.replacement, moved(before.cpu.replacement, 1));
            for number in [0, 1, 3] {
                assert_eq!(frame(&before.ram, number), frame(&now.ram, number));
            }
            assert_eq!(before.belt, now.belt);
            if now.cpu.user_mode() {
                assert_eq!(before.cpu.psw, now.cpu.psw);
                assert_eq!(before.cpu.bad_address, now.cpu.bad_address);
            }
            attacked |= get(&now.ram, LOGGED as usize) != 0;
        }
        last = Some(now.clone());
    });
    assert!(attacked);
    let mut honest = end_of_run(honest());
    assert_eq!(frame(&cell.ram, 1), frame(&honest.ram, 1));
    // The twin's loads brought nothing: the word is the one it began with.
    assert_eq!(get(frame(&cell.ram, 2), OWN_LOADED as usize), 0xFFFF_FFFF);
    assert_eq!(get(frame(&honest.ram, 2), OWN_LOADED as usize), 0);
    put(
        &mut honest.ram,
        2 * FRAME_LENGTH + OWN_LOADED as usize,
        0xFFFF_FFFF,
    );
    assert_eq!(frame(&cell.ram, 2), frame(&honest.ram, 2));
    assert!(frame(&cell.ram, 3).iter().all(|&byte| byte == 0xEE));
}

/// The cell after a whole run with the example's packs.
fn end_of_run(image: Vec<u8>) -> Rig {
    let mut cell = cell(image, &packs());
    run(&mut cell);
    cell
}

/// Valid user pages reach the routine's ROM frame, the belt and frame 2.
#[test]
fn user_pages_reach_three_frames() {
    let mut cell = cell(hostile(), &[]);
    boot(&mut cell);
    let user = cell.cpu.tlb.iter().filter(|entry| entry.high < 0x8000_0000);
    let valid: Vec<u32> = user
        .map(|entry| entry.low)
        .filter(|low| low & 1 != 0)
        .collect();
    assert_eq!(valid, [0x2000_1001, 0x3050_0001, 0x0000_2003]);
}

/// From each machine in User Mode, one step of a twin whose unreached frames
/// hold anything: the same processor, the same reached frames, and the
/// unreached ones as they were.
#[test]
fn a_step_learns_nothing_from_unreached_frames() {
    let mut numbers = Numbers(7);
    let mut cell = cell(hostile(), &packs());
    boot(&mut cell);
    let mut tried = 0;
    run_with(&mut cell, |now| {
        if !now.cpu.user_mode() {
            return;
        }
        let mut twin = now.clone();
        for at in (0..2 * FRAME_LENGTH)
            .chain(3 * FRAME_LENGTH..4 * FRAME_LENGTH)
            .step_by(4)
        {
            put(&mut twin.ram, at, numbers.next());
        }
        for at in (0..FRAME_LENGTH).step_by(4) {
            put(&mut twin.rom, at, numbers.next());
        }
        let (mut next, start) = (now.clone(), twin.clone());
        assert_eq!(next.step(), twin.step());
        assert_eq!(next.cpu, twin.cpu);
        assert_eq!(frame(&next.ram, 2), frame(&twin.ram, 2));
        assert_eq!(next.belt, twin.belt);
        for number in [0, 1, 3] {
            assert_eq!(frame(&twin.ram, number), frame(&start.ram, number));
        }
        tried += 1;
    });
    assert!(tried > 400, "{tried}");
}

/// Two whole runs, one with another count and other bytes in unreached frames:
/// User Mode sees the same, and the frames differ in the end as in the beginning.
#[test]
fn a_twin_run_differs_only_in_unreached_frames() {
    let mut one = cell(hostile(), &packs());
    boot(&mut one);
    let mut other = one.clone();
    for at in FRAME_LENGTH..2 * FRAME_LENGTH {
        other.ram[at] ^= 0x50;
    }
    for at in 3 * FRAME_LENGTH..4 * FRAME_LENGTH {
        other.ram[at] ^= 0xFF;
    }
    let first = (count(&one), count(&other));
    for _ in 0..5_000 {
        assert_eq!(one.step(), other.step());
        let mut seen = other.cpu.clone();
        if !one.cpu.user_mode() {
            // The kernel's registers, cleared before it returns.
            seen.registers[24..28].copy_from_slice(&one.cpu.registers[24..28]);
        }
        assert_eq!(one.cpu, seen);
        assert_eq!(frame(&one.ram, 2), frame(&other.ram, 2));
        assert_eq!(one.belt, other.belt);
    }
    assert_eq!(kernel_word(&one, OUTCOME), OUTCOME_ENDED);
    assert_eq!(frame(&one.ram, 0), frame(&other.ram, 0));
    // Both counted the same packs and rejects on top of their own numbers.
    let last = (count(&one), count(&other));
    assert_eq!(last.0 .0 - first.0 .0, last.1 .0 - first.1 .0);
    assert_eq!(last.0 .1 - first.0 .1, last.1 .1 - first.1 .1);
    for at in FRAME_LENGTH + 8..2 * FRAME_LENGTH {
        assert_eq!(one.ram[at] ^ 0x50, other.ram[at]);
    }
    for at in 3 * FRAME_LENGTH..4 * FRAME_LENGTH {
        assert_eq!(one.ram[at] ^ 0xFF, other.ram[at]);
    }
}

/// A routine that faults without end fills the log and no word behind it.
#[test]
fn a_full_log_ends_the_routine() {
    let mut b = Builder::new(ROUTINE_PAGE);
    b.label("again");
    b.op(tbwi(), "");
    b.jump(j, "again", "");
    let image = rom(&images().kernel, &b.finish().unwrap()).unwrap();
    let mut cell = cell(image, &[]);
    let events = run(&mut cell);
    assert_eq!(events.len() as u32, MOST_LOGGED + 1);
    assert_eq!(kernel_word(&cell, LOGGED), MOST_LOGGED);
    assert_eq!(kernel_word(&cell, OUTCOME), OUTCOME_ENDED);
    assert_eq!(get(&cell.ram, FRAME_LENGTH - 16), 18);
    assert!(frame(&cell.ram, 1).iter().all(|&byte| byte == 0));
}

/// A routine that runs off its page is ended there.
#[test]
fn a_routine_that_leaves_its_page_is_ended() {
    let b = Builder::new(ROUTINE_PAGE);
    let image = rom(&images().kernel, &b.finish().unwrap()).unwrap();
    let mut cell = cell(image, &[]);
    let events = run(&mut cell);
    let (_, eid, address, bad_address) = events[0];
    assert_eq!((events.len(), eid), (1, 21));
    assert_eq!((address, bad_address), (0x0001_1000, 0x0001_1000));
    assert_eq!(kernel_word(&cell, OUTCOME), OUTCOME_ENDED);
}

#[test]
fn both_images_have_one_kernel() {
    let (honest, hostile) = (honest(), hostile());
    assert_eq!((honest.len(), hostile.len()), (ROM_LENGTH, ROM_LENGTH));
    assert_eq!(honest[..FRAME_LENGTH], hostile[..FRAME_LENGTH]);
    assert_ne!(honest[FRAME_LENGTH..], hostile[FRAME_LENGTH..]);
}

/// The machine record as `examples/belt/machine.c` prints it.
fn record_text(cpu: &Processor) -> String {
    let mut lines = vec!["machine record".to_string()];
    for (n, row) in cpu.registers.chunks(8).enumerate() {
        let words: Vec<String> = row.iter().map(|word| format!("{word:08X}")).collect();
        let name = if n == 0 { "01 registers" } else { "" };
        lines.push(format!("  {name:15} {}", words.join(" ")));
    }
    lines.push(format!("  02 PC           {:08X}", cpu.pc));
    let special: Vec<String> = (0..5).map(|n| format!("{:08X}", cpu.special(n))).collect();
    lines.push(format!("  03 special      {}", special.join(" ")));
    for (n, entry) in cpu.tlb.iter().enumerate() {
        if entry.high < 0xC000_0000 {
            lines.push(format!(
                "  04 TLB entry {n:2} {:08X} {:08X}",
                entry.high, entry.low
            ));
        }
    }
    lines.push(format!("  05 replacement  {}", cpu.replacement));
    let Timer {
        divisor,
        counter,
        control,
    } = cpu.timer;
    lines.push(format!(
        "  06 timer        {divisor:08X} {counter:08X} {control}\n"
    ));
    lines.join("\n")
}

/// Steps of the last call of `examples/belt`, which finds that no exception
/// comes any more: the kernel stands, and the replacement index goes on.
const LAST_CALL: u64 = 50_000;

/// The model's run, as expected of it, read against the simulator's: the steps
/// of the exceptions, the count, and the machine record.
#[test]
fn the_simulator_gives_what_the_model_prints() {
    let printed = std::fs::read_to_string(format!("{EXAMPLE}/expected_state.txt")).unwrap();
    let second = printed.find("examples/belt/belt_hostile.rom: ").unwrap();
    let parts = [&printed[..second], &printed[second..]];
    for (part, image) in parts.into_iter().zip([honest(), hostile()]) {
        let mut cell = cell(image, &packs());
        let events = run(&mut cell.clone());
        let last = events.last().map_or(0, |event| event.0);
        for _ in 0..last + LAST_CALL {
            cell.step();
        }
        let table = part.lines().skip_while(|line| *line != "  step").skip(1);
        let steps = table.map_while(|line| line.split_whitespace().next()?.parse().ok());
        let made: Vec<u64> = events.iter().map(|event| event.0).collect();
        assert_eq!(steps.collect::<Vec<u64>>(), made);
        let (packs, rejects) = count(&cell);
        let accepted = packs - rejects;
        assert!(
            part.contains(&format!("counted {packs}: {accepted} accepted, {rejects} rejected.\n"))
                || part.contains(&format!("count's frame: packs {packs}, rejects {rejects}\n"))
        );
        assert!(
            part.contains(&record_text(&cell.cpu)),
            "{}",
            record_text(&cell.cpu)
        );
    }
}

#[test]
fn the_program_checks_the_files() {
    let directory = format!("{}/belt", env!("CARGO_TARGET_TMPDIR"));
    std::fs::create_dir_all(&directory).unwrap();
    let run = |arguments: &[&str]| {
        Command::new(env!("CARGO_BIN_EXE_belt_image"))
            .args(arguments)
            .output()
            .unwrap()
    };
    assert!(run(&["--check", EXAMPLE]).status.success());
    assert!(run(&[&directory]).status.success());
    assert!(run(&["--check", &directory]).status.success());
    for (name, bytes) in images().files().unwrap() {
        let path = format!("{directory}/{name}");
        let mut changed = bytes.clone();
        changed[100] ^= 1;
        std::fs::write(&path, changed).unwrap();
        let failed = run(&["--check", &directory]);
        assert_eq!(failed.status.code(), Some(1));
        assert!(String::from_utf8(failed.stderr).unwrap().contains(name));
        std::fs::write(&path, bytes).unwrap();
    }
    assert_eq!(run(&[]).status.code(), Some(1));
}
