//! Pairs of machines in User Mode that differ only in frames which no valid
//! user page reaches, given one list of runs. Their timers and replacement
//! indexes are equal (document 02, jobs 1 and 4), and so are the charges of the
//! runs that are charged (document 02, job 3).

use crate::bench::{Bench, Counts, Difference};
use crate::charges;
use crate::frames::{frames, Frame, Part, Reached, TIMER_FRAME};
use crate::runs::{agree, list, memory, stream, walk, wanted_steps, Walked};
use crate::world::{Call, Lent, Outcome, Run, World};
use eco32_reference::record::REPLACEMENT_AT;
use eco32_reference::vectors::machines;
use eco32_reference::vectors::numbers::Numbers;
use eco32_reference::vectors::scene::Scene;
use eco32_reference::{read_record, Timer, MAX_STEPS, NO_EXCEPTION};

/// Offsets of the special registers and of the TLB in the record.
const SPECIALS: std::ops::Range<usize> = 135..155;
const TLB: std::ops::Range<usize> = 156..412;

/// The two machines, with their worlds at the start.
struct Pair {
    first: Bench,
    second: World,
    starts: [World; 2],
    reached: Reached,
    frames: Vec<Frame>,
}

impl Pair {
    fn new(scene: &Scene, numbers: &mut Numbers, counts: &mut Counts) -> Pair {
        let world = World::of(scene);
        let reached = Reached::of(&scene.cpu);
        let frames = frames(&world);
        let mut second = world.clone();
        for frame in &frames {
            if reached.readable.contains(&frame.number) || numbers.percent(10) {
                continue;
            }
            change(&mut second, frame, numbers);
            let item = format!("differ in {:?}", frame.part);
            counts.calls.add("isolation", item);
        }
        Pair {
            first: Bench::new(world.clone()),
            starts: [world, second.clone()],
            second,
            reached,
            frames,
        }
    }

    /// How User Mode reaches a timer that runs.
    fn count_timer(&self, counts: &mut Counts) {
        if timer_of(&self.starts[0]).divisor == 0 {
            return;
        }
        let reached = &self.reached;
        let item = match reached.readable.contains(&TIMER_FRAME) {
            false => "timer not reached",
            true if reached.writable.contains(&TIMER_FRAME) => "timer reached writable",
            true => "timer reached",
        };
        counts.calls.add("isolation", item);
    }

    /// Lends both machines the same list of charges.
    fn lend(&mut self, charges: &[u8]) {
        self.first.lend(charges);
        self.second.charges = Lent::of(charges);
    }

    /// One run of both; their answers, which hold their charges.
    fn run(&mut self, run: Run, counts: &mut Counts) -> Result<[Outcome; 2], Difference> {
        let call = Call::Run(run);
        let first = self.first.call(call, &mut counts.calls)?;
        Ok([first, call.library(&mut self.second)])
    }

    /// The claim after so many steps, where none behind the leaving one was made.
    fn holds(&self, answers: [Outcome; 2], user: bool, steps: u64) -> Result<(), Difference> {
        let worlds = [&self.first.library, &self.second];
        let [first, second] = worlds.map(|world| world.machine.bytes());
        if answers[0] != answers[1] {
            return Err(format!("the answers differ: {answers:?}"));
        }
        if first != second {
            return Err("the records of the two differ".to_string());
        }
        let start = self.starts[0].machine.bytes();
        if first[TLB] != start[TLB] {
            return Err("the TLB changed".to_string());
        }
        if user && first[SPECIALS] != start[SPECIALS] {
            return Err("a special register changed in User Mode".to_string());
        }
        index_holds(start[REPLACEMENT_AT], first[REPLACEMENT_AT], steps)?;
        self.timer_holds(steps)?;
        self.frames_hold(worlds)
    }

    /// The timer only ticks where its frame is not reached writable.
    fn timer_holds(&self, steps: u64) -> Result<(), Difference> {
        if self.reached.writable.contains(&TIMER_FRAME) {
            return Ok(());
        }
        let mut timer = timer_of(&self.starts[0]);
        for _ in 0..steps {
            timer.tick();
        }
        let found = timer_of(&self.first.library);
        if found != timer {
            return Err(format!("{found:?} after {steps} ticks, not {timer:?}"));
        }
        Ok(())
    }

    fn frames_hold(&self, worlds: [&World; 2]) -> Result<(), Difference> {
        for frame in &self.frames {
            let number = frame.number;
            let bytes = worlds.map(|world| &frame.part.bytes(world)[frame.range.clone()]);
            if self.reached.readable.contains(&number) && bytes[0] != bytes[1] {
                return Err(format!("the reached frame {number:05X} differs"));
            }
            if self.reached.writable.contains(&number) {
                continue;
            }
            for (start, now) in self.starts.iter().zip(bytes) {
                if frame.part.bytes(start)[frame.range.clone()] != *now {
                    return Err(format!("frame {number:05X} is not writable and changed"));
                }
            }
        }
        Ok(())
    }
}

/// User Mode moves the replacement index once for each step and in no other
/// way (document 02, job 4).
fn index_holds(start: u8, found: u8, steps: u64) -> Result<(), Difference> {
    let moved = 4 + (u64::from(start) - 4 + steps) % 28;
    if u64::from(found) != moved {
        return Err(format!("index {found} after {steps} steps, not {moved}"));
    }
    Ok(())
}

fn timer_of(world: &World) -> Timer {
    read_record(world.machine.bytes()).1.timer
}

/// Gives a frame other bytes: all of them, or a few.
fn change(world: &mut World, frame: &Frame, numbers: &mut Numbers) {
    let share = numbers.pick(&[1, 10, 100]);
    let bytes = &mut frame.part.bytes_mut(world)[frame.range.clone()];
    for byte in bytes.iter_mut() {
        if numbers.percent(share) {
            *byte ^= numbers.word() as u8;
        }
    }
}

/// A machine in User Mode.
fn user_machine(numbers: &mut Numbers) -> Scene {
    loop {
        let scene = machines::machine(memory(numbers), numbers);
        if scene.cpu.user_mode() {
            return scene;
        }
    }
}

/// The step that leaves User Mode, and whether any step came after it.
#[derive(Default)]
struct Leaving {
    eid: Option<u32>,
    passed: bool,
}

/// Makes the steps of a run one by one. With `cut` it stops at the step that
/// leaves User Mode.
fn follow(
    scene: &mut Scene,
    (run, charges): (&Run, &[u8]),
    cut: bool,
    leaving: &mut Leaving,
    counts: &mut Counts,
) -> Walked {
    let one = Run {
        to_exception: true,
        wanted: 1,
        ..*run
    };
    let mut walked = Walked::NONE;
    while run.wanted <= MAX_STEPS && walked.steps < run.wanted {
        leaving.passed = leaving.eid.is_some();
        let Walked {
            eid, slot, charge, ..
        } = walk(scene, &one, charges, counts);
        walked.steps += 1;
        walked.slot = slot;
        walked.charge += charge;
        let leaves = leaving.eid.is_none() && !scene.cpu.user_mode();
        if leaves {
            leaving.eid = Some(eid);
        }
        if run.to_exception && eid != NO_EXCEPTION {
            walked.eid = eid;
            break;
        }
        if leaves && cut {
            break;
        }
    }
    walked
}

pub fn case(numbers: &mut Numbers, counts: &mut Counts) -> Result<(), Difference> {
    let list = list(numbers);
    let mut scene = stream(user_machine(numbers), &list, numbers);
    let mut pair = Pair::new(&scene, numbers, counts);
    counts.steps.begin(wanted_steps(&list));
    counts.calls.add("isolation", "pairs");
    pair.count_timer(counts);
    let mut leaving = Leaving::default();
    let mut steps = 0;
    for (n, mut run) in list.into_iter().enumerate() {
        let cut = !run.to_exception && run.wanted <= MAX_STEPS && numbers.percent(70);
        let charges = charges::random(&run, numbers, counts);
        pair.lend(&charges);
        let walked = follow(&mut scene, (&run, &charges), cut, &mut leaving, counts);
        if cut {
            run.wanted = walked.steps;
        }
        steps += walked.steps;
        pair.run(run, counts)
            .and_then(|answers| {
                agree(answers[0], walked, &scene, &pair.first)?;
                count(answers[0], &leaving, counts);
                if leaving.passed {
                    return Ok(());
                }
                pair.holds(answers, leaving.eid.is_none(), steps)
            })
            .map_err(|what| format!("pair, run {n}: {what}"))?;
        if leaving.passed {
            break;
        }
    }
    if let Some(eid) = leaving.eid {
        counts.calls.add("User Mode left by", format!("EID {eid}"));
    }
    Ok(())
}

fn count(answer: Outcome, leaving: &Leaving, counts: &mut Counts) {
    let (charged, charge) = (matches!(answer, Outcome::Charged(_)), answer.charge());
    let Some(answer) = answer.answer() else {
        return;
    };
    let item = match (answer.refusal, answer.steps, leaving.eid) {
        (1.., _, _) => "runs refused",
        (0, 0, _) => "runs of 0 steps",
        (_, _, None) => "runs that end in User Mode",
        (_, _, Some(_)) if leaving.passed => "runs past the leaving step",
        (_, 1, Some(_)) => "runs of the leaving step alone",
        (_, _, Some(_)) => "runs that end with the leaving step",
    };
    counts.calls.add("isolation", item);
    if charged {
        counts.calls.add("isolation, charged", item);
    }
    if charge > 0 && !leaving.passed {
        counts
            .calls
            .add("isolation, charged", "equal charges above 0");
    }
    if answer.steps > 0 && !leaving.passed {
        let item = answer.slot.to_string();
        counts.calls.add("slot of a pair's last step", item);
    }
}

/// Names of the parts for the required items.
pub const PARTS: [Part; 3] = [Part::Ram, Part::Rom, Part::Belt];
