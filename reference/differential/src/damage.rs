//! Damaged machines, records, lengths and counts, several at once.

use crate::bench::{Bench, Counts, Difference};
use crate::charges;
use crate::runs::{memory, too_many};
use crate::world::{Call, Lent, Run, World};
use eco32_reference::record::{CONTROL_AT, KIND_BYTES, REPLACEMENT_AT};
use eco32_reference::vectors::machines;
use eco32_reference::vectors::numbers::Numbers;
use eco32_reference::{MAX_STEPS, OLD_RECORD_LENGTH, RECORD_LENGTH};

/// A word of the record with the bits that are never kept (document 01,
/// "Closed by us"; document 02, job 1).
#[derive(Clone, Copy)]
pub struct NeverKept {
    pub name: &'static str,
    pub at: usize,
    pub bits: u32,
}

/// All words with such bits; register 0 has no bit at all, and the timer's
/// control is the low byte of the last.
pub fn never_kept() -> Vec<NeverKept> {
    let word = |name, at, bits| NeverKept { name, at, bits };
    let mut words = vec![
        word("register 0", 1, 0xFFFF_FFFF),
        word("PSW", 135, 0xF000_0000),
        word("TLB Index", 139, 0x7FFF_FFE0),
        word("Entry High", 143, 0x0000_0FFF),
        word("Entry Low", 147, 0x0000_0FFC),
    ];
    for n in 0..32 {
        words.push(word("TLB high", 156 + 8 * n, 0x0000_0FFF));
        words.push(word("TLB low", 160 + 8 * n, 0x0000_0FFC));
    }
    words.push(word("timer control", CONTROL_AT - 3, 0x0000_00FC));
    words
}

/// The cause that the record buffer has another length.
const BUFFER: u32 = 1 << 7;
/// The cause that the machine has the length from before the timer.
const OLD: u32 = 1 << 9;

/// Sets one bit of a record's word, counted from the lowest.
pub fn set_bit(record: &mut [u8], at: usize, bit: u32) {
    record[at + 3 - bit as usize / 8] |= 1 << (bit % 8);
}

/// Breaks the rule of refusal 6 in one place of a record of either length.
fn unfit(record: &mut [u8], numbers: &mut Numbers) {
    match numbers.below(10) {
        0 | 1 => {
            record[REPLACEMENT_AT] = numbers.pick(&[0, 1, 2, 3, 32, 33, 64, 255]);
            return;
        }
        2 if record.len() == RECORD_LENGTH => {
            record[CONTROL_AT] = numbers.pick(&[4, 5, 7, 8, 0x43, 0x80, 255]);
            return;
        }
        _ => {}
    }
    let mut words = never_kept();
    words.retain(|word| word.at + 4 <= record.len());
    let word = numbers.pick(&words);
    let bits: Vec<u32> = (0..32).filter(|bit| word.bits >> bit & 1 == 1).collect();
    set_bit(record, word.at, numbers.pick(&bits));
}

/// Damages a record as bits 0, 1 and 2 of `causes` say: refusals 4, 5, 6.
fn damage_record(record: &mut Lent, causes: u32, numbers: &mut Numbers) {
    if causes & 4 != 0 {
        unfit(record.bytes_mut(), numbers);
    }
    if causes & 2 != 0 {
        let mut places = KIND_BYTES.to_vec();
        places.retain(|&(at, _)| at < record.bytes().len());
        let (at, kind) = numbers.pick(&places);
        let other = numbers.pick(&[0, 1, 2, 3, 4, 5, 6, 7, 0x80 | kind, 255]);
        record.bytes_mut()[at] = if other == kind { !kind } else { other };
    }
    if causes & 1 != 0 {
        let length = numbers.pick(&[0, 1, 129, 413, 415, 416, 423, 425, 828, 848]);
        record.resize(length, numbers.word() as u8);
    }
}

/// A length that is no RAM or ROM length.
fn wrong_length(numbers: &mut Numbers) -> usize {
    let any = numbers.below(20_000) as usize | 1;
    numbers.pick(&[0, 1, 1024, 4095, 4097, 6144, 8191, 8193, any])
}

/// Damages a world as bits 0 to 5 and 8 of `causes` say: refusals 1 to 6 and 9.
/// With OLD the machine loses its timer first.
fn damage(world: &mut World, causes: u32, numbers: &mut Numbers) {
    if causes & 1 != 0 {
        world.ram.resize(wrong_length(numbers), 0x11);
    }
    if causes & 2 != 0 {
        world.rom.resize(wrong_length(numbers), 0x22);
    }
    if causes & 4 != 0 {
        let length = numbers.pick(&[0, 1, 1020, 1023, 1025, 1028, 4096]);
        world.belt.resize(length, 0x33);
    }
    if causes & OLD != 0 {
        world.machine.resize(OLD_RECORD_LENGTH, 0);
    }
    damage_record(&mut world.machine, causes >> 3, numbers);
    if causes & 1 << 8 != 0 {
        let length = charges::wrong_length(numbers);
        world.charges.resize(length, 0x44);
    }
    if causes & BUFFER != 0 {
        let length = numbers.pick(&[0, 413, 414, 423, 425, 1000]);
        world.record.resize(length, 0x55);
    }
}

/// The refusal of a call on a world with these causes; bit 6 is too many
/// steps, and OLD a machine that may be read but not written. Only a charged
/// run takes a list of charges.
fn first_refusal(call: Call, causes: u32) -> u32 {
    let written = matches!(call, Call::Reset | Call::Run(_));
    let causes = match causes & OLD {
        OLD if written => causes | 1 << 3,
        _ => causes,
    };
    let taken: &[u32] = match call {
        Call::Reset => &[4],
        Call::ReadRecord | Call::WriteRecord => &[4, 5, 6],
        Call::Run(run) if run.charged => &[1, 2, 3, 4, 5, 6, 7, 9],
        Call::Run(_) => &[1, 2, 3, 4, 5, 6, 7],
        Call::PageView(_) => &[1, 4, 5, 6],
    };
    let record_buffer = matches!(call, Call::ReadRecord | Call::WriteRecord);
    if record_buffer && causes & BUFFER != 0 {
        return 4;
    }
    let holds = |refusal: &&u32| causes >> (*refusal - 1) & 1 == 1;
    taken.iter().find(holds).copied().unwrap_or(0)
}

/// One case: a world with some causes, and every call on it.
pub fn case(numbers: &mut Numbers, counts: &mut Counts) -> Result<(), Difference> {
    let scene = machines::machine(memory(numbers), numbers);
    let sparse = numbers.percent(60);
    let causes = (0..10).fold(0, |causes, n| {
        let set = numbers.percent(if sparse { 15 } else { 45 });
        causes | u32::from(set) << n
    });
    let mut world = World::of(&scene);
    damage(&mut world, causes, numbers);
    let wanted = if causes & 0x40 != 0 {
        too_many(numbers)
    } else {
        u64::from(numbers.below(8))
    };
    let lines = numbers.word() as u16;
    let item = format!("{} at once", (causes & 0x7F).count_ones());
    counts.calls.add("causes of refusals 1 to 7", item);
    let item = format!("{} at once", (causes & 0x17F).count_ones());
    counts.calls.add("causes of refusals 1 to 7 and 9", item);
    let kinds = [(false, false), (true, false), (false, true), (true, true)];
    let runs = kinds.map(|(to_exception, charged)| Run {
        to_exception,
        charged,
        wanted,
        lines,
    });
    calls(&world, causes, runs, counts)?;
    reading(&world, causes, numbers, counts)
}

/// Runs, writing, a view in the direct-mapped space, and reset, each on the
/// world as it is.
fn calls(
    world: &World,
    causes: u32,
    runs: [Run; 4],
    counts: &mut Counts,
) -> Result<(), Difference> {
    let rest = [Call::WriteRecord, Call::PageView(0xC0000), Call::Reset];
    for call in runs.map(Call::Run).into_iter().chain(rest) {
        let mut bench = Bench::new(world.clone());
        bench.expect(call, first_refusal(call, causes), &mut counts.calls)?;
    }
    Ok(())
}

/// The record with the machine's damages, read to a buffer of its own length.
fn reading(
    world: &World,
    causes: u32,
    numbers: &mut Numbers,
    counts: &mut Counts,
) -> Result<(), Difference> {
    let mut world = world.clone();
    let length = world.record.bytes().len();
    world.record = world.machine.clone();
    world.machine = Lent::of(&vec![numbers.word() as u8; length]);
    let mut bench = Bench::new(world);
    let call = Call::ReadRecord;
    bench.expect(call, first_refusal(call, causes), &mut counts.calls)?;
    // What was read is a machine: it can be written back and run.
    if bench.library.machine.bytes().len() == RECORD_LENGTH {
        bench.call(Call::WriteRecord, &mut counts.calls)?;
        let lines = numbers.word() as u16;
        for wanted in [0, 3, MAX_STEPS + 1] {
            let run = Run {
                to_exception: numbers.percent(50),
                charged: numbers.percent(50),
                wanted,
                lines,
            };
            bench.call(Call::Run(run), &mut counts.calls)?;
        }
    }
    Ok(())
}
