//! Cycle charges (document 02, job 3): lists of charges, what holds of every
//! charged run, and calls that need no random choice.

use crate::bench::{Bench, Counts, Difference};
use crate::systematic::{charged, plain, to_exception};
use crate::world::{Call, Run, World};
use eco32_reference::asm::{addi, j};
use eco32_reference::vectors::numbers::Numbers;
use eco32_reference::vectors::scene::{Place, Scene};
use eco32_reference::vectors::tally::Tally;
use eco32_reference::{refusal, Answer, Charged, Stepped, MAX_STEPS, NO_EXCEPTION};

/// Entries of a list: one for each opcode, and the one of an exception.
const ENTRIES: usize = 65;
const EXCEPTION: usize = 64;
const LENGTH: usize = 2 * ENTRIES;

/// Opcodes that complete no instruction: illegal, TRAP, illegal.
pub const NEVER_COMPLETED: [usize; 4] = [0x1E, 0x2E, 0x3E, 0x3F];

fn list(charge: impl FnMut(usize) -> u16) -> Vec<u8> {
    (0..ENTRIES)
        .map(charge)
        .flat_map(u16::to_be_bytes)
        .collect()
}

/// A list without two equal entries.
pub fn distinct() -> Vec<u8> {
    list(|entry| 0x0203 + 0x0307 * entry as u16)
}

fn only(entry: usize, charge: u16) -> Vec<u8> {
    list(|n| if n == entry { charge } else { 0 })
}

/// The kinds of lists that random runs are charged by.
pub const KINDS: [&str; 7] = [
    "random",
    "zeros",
    "all 65,535",
    "0 and 65,535",
    "one entry",
    "entry 64 alone",
    "all but entry 64",
];

/// A random list of the right length. A run that is not charged takes none, so
/// that any will do.
pub fn random(run: &Run, numbers: &mut Numbers, counts: &mut Counts) -> Vec<u8> {
    if !run.charged {
        return distinct();
    }
    let kind = numbers.pick(&KINDS);
    counts.calls.add("list of charges", kind);
    let charge = numbers.pick(&[1, 255, 256, 65_535]);
    match kind {
        "zeros" => list(|_| 0),
        "all 65,535" => list(|_| 65_535),
        "0 and 65,535" => list(|_| numbers.pick(&[0, 65_535])),
        "one entry" => only(numbers.below(ENTRIES as u32) as usize, charge),
        "entry 64 alone" => only(EXCEPTION, charge),
        "all but entry 64" => list(|n| if n == EXCEPTION { 0 } else { charge }),
        _ => list(|_| numbers.word() as u16),
    }
}

/// A length that no list has.
pub fn wrong_length(numbers: &mut Numbers) -> usize {
    let any = LENGTH + 1 + numbers.below(1000) as usize;
    numbers.pick(&[0, 1, 2, 64, 65, 128, 129, 131, 132, 260, 386, 424, any])
}

/// The entry by which a step is charged.
pub fn entry_of(stepped: Stepped) -> usize {
    match (stepped.eid, stepped.opcode) {
        (NO_EXCEPTION, Some(opcode)) => opcode as usize,
        _ => EXCEPTION,
    }
}

/// What a step costs by a list of the right length.
pub fn cost(list: &[u8], stepped: Stepped) -> u64 {
    let at = 2 * entry_of(stepped);
    256 * u64::from(list[at]) + u64::from(list[at + 1])
}

/// What holds of every charged run, where the run without charges is known:
/// machine, memory and other answers are those of that run, unless 9 refuses
/// it, which then is the only cause.
pub fn holds(
    charged: Charged,
    after: &World,
    without: Option<(Answer, World)>,
) -> Result<(), Difference> {
    bounded(charged, after.charges.bytes())?;
    let Some((answer, world)) = without else {
        return Ok(());
    };
    if charged.answer.refusal == refusal::CHARGES_LENGTH {
        return match answer.refusal {
            refusal::NONE => Ok(()),
            _ => Err(format!("without charges {answer:?}")),
        };
    }
    if answer != charged.answer {
        return Err(format!("without charges {answer:?}"));
    }
    match world.difference(after, ["without charges", "with them"]) {
        Some(what) => Err(what),
        None => Ok(()),
    }
}

/// At most the steps made times the largest charge; 0 if refused.
fn bounded(charged: Charged, list: &[u8]) -> Result<(), Difference> {
    let Charged { answer, charge } = charged;
    if answer.refusal != refusal::NONE {
        return match (answer.steps, answer.eid, answer.slot, charge) {
            (0, 32, 33, 0) => Ok(()),
            _ => Err("a refusal comes with steps, an EID, a slot or a charge".to_string()),
        };
    }
    let charges = list
        .chunks(2)
        .map(|entry| 256 * u64::from(entry[0]) + u64::from(entry[1]));
    let most = u64::from(answer.steps) * charges.max().unwrap_or(0);
    if charge > most {
        return Err(format!("the charge exceeds {most}"));
    }
    Ok(())
}

pub fn count(call: Call, charged: Charged, tally: &mut Tally) {
    let item = match (charged.answer.refusal, charged.answer.steps, charged.charge) {
        (1.., _, 0) => "0, refused",
        (0, 0, 0) => "0, no steps",
        (_, _, 0) => "0",
        (_, _, 1..=0xFFFF) => "16 bits",
        (_, _, 0x1_0000..=0xFFFF_FFFF) => "32 bits",
        _ => "more bits",
    };
    tally.add("charge", format!("{} {item}", call.name()));
}

/// Makes a charged run with a list of another length, and lends the list again.
pub fn refused(
    bench: &mut Bench,
    run: Run,
    numbers: &mut Numbers,
    counts: &mut Counts,
) -> Result<(), Difference> {
    let list = bench.library.charges.clone();
    let mut other = list.clone();
    other.resize(wrong_length(numbers), numbers.word() as u8);
    bench.lend(other.bytes());
    let refusal = if run.wanted > MAX_STEPS { 7 } else { 9 };
    let outcome = bench.expect(Call::Run(run), refusal, &mut counts.calls);
    bench.lend(list.bytes());
    outcome.map(|_| ())
}

pub fn all(counts: &mut Counts) -> Result<(), Difference> {
    lengths(counts)?;
    each_entry(counts)?;
    exact_sums(counts)
}

/// Lists of all lengths up to twice the right one, with steps and without, and
/// with too many.
fn lengths(counts: &mut Counts) -> Result<(), Difference> {
    let mut world = World::of(&Scene::new());
    for length in (0..=2 * LENGTH + 2).chain([1024, 4096, 65_536]) {
        world.charges.resize(length, 0x13);
        let right = if length == LENGTH { 0 } else { 9 };
        for (wanted, refusal) in [(0, right), (1, right), (MAX_STEPS + 1, 7)] {
            for run in [plain(wanted), to_exception(wanted)].map(charged) {
                let mut bench = Bench::new(world.clone());
                bench.expect(Call::Run(run), refusal, &mut counts.calls)?;
            }
        }
    }
    Ok(())
}

/// One step of each opcode in both modes, with a charge for one entry alone.
fn each_entry(counts: &mut Counts) -> Result<(), Difference> {
    for opcode in 0..64 {
        for place in [Place::KernelRom, Place::User] {
            // Operands R1, R2 and R3; a load or store reaches the word behind.
            let word = (opcode as u32) << 26 | 0x0022_1800;
            let base = (place.pc() + 4).wrapping_sub(0x1800);
            let scene = place.scene(&[word]).set(1, base).set(2, 5);
            let entry = entry_of(scene.clone().step(0));
            for charging in 0..ENTRIES {
                let mut world = World::of(&scene);
                world
                    .charges
                    .bytes_mut()
                    .copy_from_slice(&only(charging, 0xA95C));
                let expected = if charging == entry { 0xA95C } else { 0 };
                for run in [plain(1), to_exception(1)].map(charged) {
                    costs(Bench::new(world.clone()), run, expected, counts)?;
                }
            }
            counts
                .calls
                .add("one step by each entry", entry.to_string());
        }
    }
    Ok(())
}

/// The most steps with the largest charges, and with two charges.
fn exact_sums(counts: &mut Counts) -> Result<(), Difference> {
    let mut scene = Scene::new();
    scene.put(0x2000_0000, addi(1, 1, 1));
    scene.put(0x2000_0004, j(-2));
    let two = list(|entry| if entry == 1 { 65_535 } else { 1 });
    for (charges, expected) in [
        (list(|_| 65_535), 65_535_000_000),
        (list(|_| 0), 0),
        (two, 32_768_000_000),
    ] {
        for run in [plain(MAX_STEPS), to_exception(MAX_STEPS)].map(charged) {
            let mut bench = Bench::new(World::of(&scene));
            bench.lend(&charges);
            costs(bench, run, expected, counts)?;
        }
    }
    Ok(())
}

fn costs(mut bench: Bench, run: Run, expected: u64, counts: &mut Counts) -> Result<(), Difference> {
    let outcome = bench.expect(Call::Run(run), 0, &mut counts.calls)?;
    if outcome.charge() != expected {
        return Err(format!("{run:?}: {outcome:?} instead of charge {expected}"));
    }
    Ok(())
}
