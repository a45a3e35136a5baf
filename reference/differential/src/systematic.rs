//! Calls that need no random choice: every never-kept bit, every kind byte,
//! every length near the right one, every set of causes, the largest memory.

use crate::bench::{Bench, Counts, Difference};
use crate::damage::{never_kept, set_bit};
use crate::world::{Call, Lent, Run, World};
use eco32_reference::asm::{addi, j, mvts, stw, tbwr};
use eco32_reference::record::{readable, CONTROL_AT, KIND_BYTES, REPLACEMENT_AT};
use eco32_reference::vectors::machines;
use eco32_reference::vectors::numbers::Numbers;
use eco32_reference::vectors::scene::Scene;
use eco32_reference::{MAX_STEPS, OLD_RECORD_LENGTH, RECORD_LENGTH};

const RAM_MOST: usize = 536_870_912;
const ROM_MOST: usize = 268_435_456;

const RUNS: [Run; 4] = each_kind(1);

pub const fn plain(wanted: u64) -> Run {
    Run {
        to_exception: false,
        charged: false,
        wanted,
        lines: 0,
    }
}

pub const fn to_exception(wanted: u64) -> Run {
    Run {
        to_exception: true,
        charged: false,
        wanted,
        lines: 0,
    }
}

pub const fn charged(run: Run) -> Run {
    Run {
        charged: true,
        ..run
    }
}

/// Both kinds of run, without charges and with them.
const fn each_kind(wanted: u64) -> [Run; 4] {
    let (plain, to_exception) = (plain(wanted), to_exception(wanted));
    [plain, to_exception, charged(plain), charged(to_exception)]
}

pub fn all(counts: &mut Counts) -> Result<(), Difference> {
    never_kept_bits(counts)?;
    bytes_of_the_record(counts)?;
    lengths_of_buffers(counts)?;
    lengths_of_memory(counts)?;
    sets_of_causes(counts)?;
    numbers_of_steps(counts)?;
    largest_memory(counts)
}

/// A fit machine with all words set.
fn full_world() -> World {
    let mut numbers = Numbers::new(32);
    let mut scene = machines::machine(Scene::new(), &mut numbers);
    for entry in &mut scene.cpu.tlb {
        entry.high = numbers.word() & 0xFFFF_F000;
        entry.low = numbers.word() & 0xFFFF_F003;
    }
    World::of(&scene.with_timer(0x0102_0304, 0x0506_0708, 2))
}

/// The same with its machine in a record from before the timer.
fn old_world() -> World {
    let mut world = full_world();
    world.machine.resize(OLD_RECORD_LENGTH, 0);
    world
}

/// Each call that takes a machine, and reading the same bytes as a record. A
/// run writes its machine, so it takes no old one.
fn each_call(world: &World, refusal: u32, counts: &mut Counts) -> Result<(), Difference> {
    let old = world.machine.bytes().len() == OLD_RECORD_LENGTH;
    for run in RUNS.map(Call::Run) {
        let refusal = if old { 4 } else { refusal };
        Bench::new(world.clone()).expect(run, refusal, &mut counts.calls)?;
    }
    // A fit machine has a frame behind its direct-mapped pages.
    for call in [Call::WriteRecord, Call::PageView(0xC0001)] {
        Bench::new(world.clone()).expect(call, refusal, &mut counts.calls)?;
    }
    let mut reading = world.clone();
    std::mem::swap(&mut reading.record, &mut reading.machine);
    Bench::new(reading).expect(Call::ReadRecord, refusal, &mut counts.calls)?;
    Ok(())
}

fn never_kept_bits(counts: &mut Counts) -> Result<(), Difference> {
    for word in never_kept() {
        for bit in (0..32).filter(|bit| word.bits >> bit & 1 == 1) {
            for mut world in [full_world(), old_world()] {
                if word.at + 4 <= world.machine.bytes().len() {
                    set_bit(world.machine.bytes_mut(), word.at, bit);
                    each_call(&world, 6, counts)?;
                }
            }
            counts.calls.add("never-kept bits", word.name);
        }
    }
    Ok(())
}

/// Each call on a machine of either length with one byte changed, if it has it.
fn with_byte(at: usize, value: u8, refusal: u32, counts: &mut Counts) -> Result<(), Difference> {
    for mut world in [full_world(), old_world()] {
        if let Some(byte) = world.machine.bytes_mut().get_mut(at) {
            *byte = value;
            each_call(&world, refusal, counts)?;
        }
    }
    Ok(())
}

/// All values of each kind byte, of the replacement index and of the timer's
/// control.
fn bytes_of_the_record(counts: &mut Counts) -> Result<(), Difference> {
    for value in 0..=255 {
        for (at, kind) in KIND_BYTES {
            let refusal = if value == kind { 0 } else { 5 };
            with_byte(at, value, refusal, counts)?;
            counts.calls.add("kind byte", format!("{kind:02X}"));
        }
        let refusal = if (4..32).contains(&value) { 0 } else { 6 };
        with_byte(REPLACEMENT_AT, value, refusal, counts)?;
        let refusal = if value < 4 { 0 } else { 6 };
        with_byte(CONTROL_AT, value, refusal, counts)?;
    }
    Ok(())
}

/// Record buffers of all lengths up to twice the right one.
fn lengths_of_buffers(counts: &mut Counts) -> Result<(), Difference> {
    for length in (0..=2 * RECORD_LENGTH).chain([4096, 65_536]) {
        let reading = if readable(length) { 0 } else { 4 };
        let writing = if length == RECORD_LENGTH { 0 } else { 4 };
        let mut world = full_world();
        world.machine.resize(length, 1);
        each_call(&world, reading, counts)?;
        Bench::new(world).expect(Call::Reset, writing, &mut counts.calls)?;
        for mut world in [full_world(), old_world()] {
            world.record.resize(length, 1);
            let mut bench = Bench::new(world.clone());
            bench.expect(Call::WriteRecord, writing, &mut counts.calls)?;
            std::mem::swap(&mut world.record, &mut world.machine);
            Bench::new(world).expect(Call::ReadRecord, writing, &mut counts.calls)?;
        }
    }
    Ok(())
}

/// Lengths of RAM, ROM and belt around the right ones.
fn lengths_of_memory(counts: &mut Counts) -> Result<(), Difference> {
    let near = |length: usize| [length - 1, length, length + 1, length + 4];
    let lengths = (0..5).map(|n| 4096 * n).flat_map(|length| match length {
        0 => [0, 1, 4, 1024],
        _ => near(length),
    });
    for length in lengths {
        let fits = length >= 4096 && length % 4096 == 0;
        for (ram, refusal) in [(true, 1), (false, 2)] {
            let mut world = full_world();
            let memory = if ram { &mut world.ram } else { &mut world.rom };
            memory.resize(length, 0);
            let refusal = if fits { 0 } else { refusal };
            for run in RUNS {
                let mut bench = Bench::new(world.clone());
                bench.expect(Call::Run(run), refusal, &mut counts.calls)?;
            }
            let view = if ram { refusal } else { 0 };
            let mut bench = Bench::new(world);
            bench.expect(Call::PageView(0xC0000), view, &mut counts.calls)?;
        }
    }
    for length in (0..=2052).chain([4096, 8192]) {
        let refusal = if length == 1024 { 0 } else { 3 };
        let mut world = full_world();
        world.belt.resize(length, 0);
        for run in RUNS {
            let mut bench = Bench::new(world.clone());
            bench.expect(Call::Run(run), refusal, &mut counts.calls)?;
        }
    }
    Ok(())
}

/// Whether a set of causes has that of a refusal. Bit 7 is that of 9.
fn holds(causes: u32, refusal: u32) -> bool {
    let bit = if refusal == 9 { 7 } else { refusal - 1 };
    causes >> bit & 1 == 1
}

/// A world with these causes, but for too many steps; a machine of another
/// length has the given one.
fn with_causes(causes: u32, length: usize) -> World {
    let mut world = full_world();
    if holds(causes, 6) {
        world.machine.bytes_mut()[135] |= 0x80;
    }
    if holds(causes, 5) {
        world.machine.bytes_mut()[129] = 3;
    }
    if holds(causes, 4) {
        world.machine.resize(length, 0);
    }
    for (refusal, lent) in [
        (1, &mut world.ram),
        (2, &mut world.rom),
        (3, &mut world.belt),
        (9, &mut world.charges),
    ] {
        if holds(causes, refusal) {
            lent.resize(lent.bytes().len() + 1, 0);
        }
    }
    world
}

/// All sets of the causes 1 to 7 and 9, for both kinds of run, with several
/// lengths that a run takes no machine of. A run without charges takes no list.
fn sets_of_causes(counts: &mut Counts) -> Result<(), Difference> {
    for (causes, length) in (0..256).flat_map(|causes| [413, 414, 423].map(|n| (causes, n))) {
        let world = with_causes(causes, length);
        let wanted = if holds(causes, 7) { MAX_STEPS + 1 } else { 2 };
        for run in each_kind(wanted) {
            let last = if run.charged { Some(9) } else { None };
            let first = (1..8).chain(last).find(|&refusal| holds(causes, refusal));
            let mut bench = Bench::new(world.clone());
            bench.expect(Call::Run(run), first.unwrap_or(0), &mut counts.calls)?;
        }
    }
    Ok(())
}

/// A loop of five steps without exceptions that stores and writes a new TLB
/// entry each time. 5 and 28 have no common divisor, so it comes to every slot.
fn endless_loop() -> Scene {
    let words = [
        addi(1, 1, 0x1000),
        stw(1, 2, 0x80),
        mvts(1, 2),
        tbwr(),
        j(-5),
    ];
    let mut scene = Scene::new();
    for (n, word) in words.into_iter().enumerate() {
        scene.put(0x2000_0000 + 4 * n as u32, word);
    }
    scene.set(2, 0xC000_0000)
}

/// Counts of steps at the limit and far past it, with the timer off and
/// running, and the replacement index at both ends.
fn numbers_of_steps(counts: &mut Counts) -> Result<(), Difference> {
    let scene = endless_loop();
    let timed = scene.clone().with_timer(1009, 1, 2).with_index(31);
    for wanted in [0, 1, 2, MAX_STEPS - 1, MAX_STEPS] {
        for run in each_kind(wanted) {
            for scene in [&scene, &timed] {
                let mut bench = Bench::new(World::of(scene));
                bench.expect(Call::Run(run), 0, &mut counts.calls)?;
            }
            let item = format!("{} of {wanted} steps", Call::Run(run).name());
            counts.calls.add("steps of one run", item);
        }
    }
    for wanted in [MAX_STEPS + 1, 1 << 32, (1 << 32) + 1, 1 << 63, u64::MAX] {
        for run in each_kind(wanted) {
            let mut bench = Bench::new(World::of(&scene));
            bench.expect(Call::Run(run), 7, &mut counts.calls)?;
        }
    }
    Ok(())
}

/// A world with memory of zeros; each side makes its own, so that untouched
/// memory is never copied.
fn zero_world(ram: usize, rom: usize, cpu: &Scene) -> Bench {
    let make = || {
        let mut world = World::of(cpu);
        world.ram = Lent::zeros(ram);
        world.rom = Lent::zeros(rom);
        world
    };
    Bench {
        library: make(),
        simulator: make(),
    }
}

/// RAM and ROM of the greatest lengths, used up to their last words, and one
/// frame more.
fn largest_memory(counts: &mut Counts) -> Result<(), Difference> {
    let mut scene = Scene::new();
    scene.cpu.pc = 0xDFFF_FFF8;
    let scene = scene.set(1, 0xE000_0000).set(2, 0xF000_0000);
    let words = [stw(1, 1, -12), stw(2, 2, -4)];
    let mut bench = zero_world(RAM_MOST, ROM_MOST, &scene);
    for world in [&mut bench.library, &mut bench.simulator] {
        for (n, word) in words.into_iter().enumerate() {
            let at = RAM_MOST - 8 + 4 * n;
            world.ram.bytes_mut()[at..at + 4].copy_from_slice(&word.to_be_bytes());
        }
    }
    // Two stores at the end of RAM, then on into the zeros of ROM.
    for run in [plain(2), charged(plain(3))] {
        bench.call(Call::Run(run), &mut counts.calls)?;
    }
    for page in [0xDFFFF, 0xE0000, 0xC0000] {
        bench.call(Call::PageView(page), &mut counts.calls)?;
    }
    counts.calls.add("largest memory", "used");
    for (ram, rom, refusal) in [(RAM_MOST + 4096, 4096, 1), (4096, ROM_MOST + 4096, 2)] {
        for run in RUNS {
            let mut bench = zero_world(ram, rom, &scene);
            let outcome = bench.call(Call::Run(run), &mut counts.calls)?;
            if outcome.refusal() != refusal {
                return Err(format!("RAM {ram}, ROM {rom}: {outcome:?}"));
            }
            counts.calls.add("largest memory", "passed by one frame");
        }
    }
    Ok(())
}
