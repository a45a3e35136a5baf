//! Random machines with random lists of runs.

use crate::bench::{Bench, Counts, Difference};
use crate::charges;
use crate::world::{Call, Outcome, Run, World};
use eco32_reference::vectors::machines;
use eco32_reference::vectors::numbers::Numbers;
use eco32_reference::vectors::scene::{Region, Scene};
use eco32_reference::vectors::stream::{random_lines, Stream};
use eco32_reference::{write_record, MAX_STEPS, NO_EXCEPTION, NO_SLOT, RECORD_LENGTH};

/// A scene with memory of random lengths, some words of it random.
pub fn memory(numbers: &mut Numbers) -> Scene {
    let ram = 4096 * numbers.pick(&[1, 2, 2, 2, 3, 4, 6, 8]);
    let rom = 4096 * numbers.pick(&[1, 1, 1, 2, 3]);
    let mut scene = Scene::sized(ram, rom);
    for _ in 0..numbers.below(64) {
        let region = numbers.pick(&Region::ALL);
        let at = numbers.below(scene.length(region)) & !3;
        scene.put(region.base() + at, numbers.word());
    }
    scene
}

/// Steps wanted by one run of a list.
fn wanted(numbers: &mut Numbers, style: u32) -> u64 {
    match (numbers.below(40), style) {
        (0 | 1, _) => 0,
        (2, _) => too_many(numbers),
        (_, 0) => 1,
        (_, 1) => u64::from(1 + numbers.below(12)),
        _ => u64::from(20 + numbers.below(380)),
    }
}

/// More steps than a run may want.
pub fn too_many(numbers: &mut Numbers) -> u64 {
    let few = u64::from(numbers.below(100));
    let large = numbers.pick(&[1 << 32, 1 << 33, 1 << 63, u64::MAX - 100]);
    numbers.pick(&[MAX_STEPS + 1, MAX_STEPS + 1 + few, large + few])
}

/// A list of runs: single steps, short runs, or few long ones.
pub fn list(numbers: &mut Numbers) -> Vec<Run> {
    let style = numbers.pick(&[0, 0, 0, 1, 1, 1, 1, 2]);
    let count = match style {
        0 => 1 + numbers.below(40),
        1 => 1 + numbers.below(8),
        _ => 1 + numbers.below(2),
    };
    let busy = numbers.pick(&[0, 10, 40]);
    (0..count)
        .map(|_| Run {
            to_exception: numbers.percent(60),
            charged: numbers.percent(40),
            wanted: wanted(numbers, style),
            lines: if numbers.percent(busy) {
                random_lines(numbers)
            } else {
                0
            },
        })
        .collect()
}

/// Steps that the accepted runs of a list want together.
pub fn wanted_steps(list: &[Run]) -> usize {
    let accepted = list.iter().filter(|run| run.wanted <= MAX_STEPS);
    accepted.map(|run| run.wanted as usize).sum()
}

/// Chooses the instructions of a machine along a list of runs.
pub fn stream(start: Scene, list: &[Run], numbers: &mut Numbers) -> Scene {
    let mut stream = Stream::new(start);
    for run in list.iter().filter(|run| run.wanted <= MAX_STEPS) {
        for _ in 0..run.wanted {
            let eid = stream.step(numbers, run.lines);
            if run.to_exception && eid != NO_EXCEPTION {
                break;
            }
        }
    }
    stream.start
}

/// What the single steps of a run come to: their number, the EID that ends it
/// or 32, the slot of the last or 33, and their charge if it is charged.
#[derive(Debug, PartialEq)]
pub struct Walked {
    pub steps: u64,
    pub eid: u32,
    pub slot: u32,
    pub charge: u64,
}

impl Walked {
    pub const NONE: Walked = Walked {
        steps: 0,
        eid: NO_EXCEPTION,
        slot: NO_SLOT,
        charge: 0,
    };
}

/// The steps of one run, made one by one to count what they cover, and charged
/// by a list of the right length.
pub fn walk(scene: &mut Scene, run: &Run, list: &[u8], counts: &mut Counts) -> Walked {
    let mut walked = Walked::NONE;
    while run.wanted <= MAX_STEPS && walked.steps < run.wanted {
        let stepped = counts.steps.step(scene, run.lines);
        walked.steps += 1;
        walked.slot = stepped.slot;
        if run.charged {
            walked.charge += charges::cost(list, stepped);
            let entry = charges::entry_of(stepped).to_string();
            counts.calls.add("charged by entry", entry);
        }
        if run.to_exception && stepped.eid != NO_EXCEPTION {
            walked.eid = stepped.eid;
            break;
        }
    }
    walked
}

/// Holds the answer and the state of a run to its single steps.
pub fn agree(
    outcome: Outcome,
    walked: Walked,
    scene: &Scene,
    bench: &Bench,
) -> Result<(), Difference> {
    let Some(answer) = outcome.answer() else {
        return Err("no answer of a run".to_string());
    };
    let answered = Walked {
        steps: u64::from(answer.steps),
        eid: answer.eid,
        slot: answer.slot,
        charge: outcome.charge(),
    };
    if answered != walked {
        return Err(format!("{outcome:?}, but single steps give {walked:?}"));
    }
    let mut record = [0; RECORD_LENGTH];
    write_record(&scene.cpu, &mut record);
    if bench.library.machine.bytes() != record || bench.library.ram.bytes() != scene.ram {
        return Err("a run differs from its single steps".to_string());
    }
    Ok(())
}

/// One case: a machine and its list.
pub fn case(numbers: &mut Numbers, counts: &mut Counts) -> Result<(), Difference> {
    let list = list(numbers);
    let scene = machines::machine(memory(numbers), numbers);
    let mut scene = stream(scene, &list, numbers);
    let mut bench = Bench::new(World::of(&scene));
    count_index(&scene, counts);
    counts.steps.begin(wanted_steps(&list));
    for (n, run) in list.iter().enumerate() {
        count_run(run, counts);
        let charges = charges::random(run, numbers, counts);
        bench.lend(&charges);
        if run.charged && numbers.percent(5) {
            charges::refused(&mut bench, *run, numbers, counts)
                .map_err(|what| format!("before run {n}: {what}"))?;
        }
        let walked = walk(&mut scene, run, &charges, counts);
        bench
            .call(Call::Run(*run), &mut counts.calls)
            .and_then(|outcome| agree(outcome, walked, &scene, &bench))
            .map_err(|what| format!("run {n}: {what}"))?;
    }
    Ok(())
}

/// The replacement index that a machine begins with.
fn count_index(scene: &Scene, counts: &mut Counts) {
    let item = scene.cpu.replacement.to_string();
    counts.calls.add("index at the start", item);
}

fn count_run(run: &Run, counts: &mut Counts) {
    let kind = match (run.to_exception, run.charged) {
        (false, false) => "plain",
        (true, false) => "to exception",
        (false, true) => "charged plain",
        (true, true) => "charged to exception",
    };
    let length = match run.wanted {
        0 => "0 steps",
        1 => "1 step",
        2..=12 => "2 to 12 steps",
        13..=MAX_STEPS => "more steps",
        _ => "too many steps",
    };
    counts.calls.add("run", format!("{kind}, {length}"));
}
