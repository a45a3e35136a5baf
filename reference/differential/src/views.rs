//! Page views of random machines, with records of both lengths.

use crate::bench::{Bench, Counts, Difference};
use crate::runs::memory;
use crate::world::{Call, Outcome, World};
use eco32_reference::vectors::machines;
use eco32_reference::vectors::numbers::Numbers;
use eco32_reference::vectors::scene::Scene;
use eco32_reference::{DIRECT_MAPPED, NO_SLOT, OLD_RECORD_LENGTH};

/// Pages to look at: those of the TLB and their neighbours, the first and last
/// of each space and of RAM, and numbers that no page has.
fn pages(scene: &Scene, numbers: &mut Numbers) -> Vec<u64> {
    let mut pages = Vec::new();
    for entry in &scene.cpu.tlb {
        let page = u64::from(entry.high >> 12);
        if page != 0xC0000 {
            pages.extend([page, page ^ 1]);
        }
    }
    let end = scene.ram.len() as u64 / 4096;
    pages.extend([
        0, 0x7FFFF, 0x80000, 0xBFFFF, 0xC0000, 0xC0001, 0xE0000, 0xF0000, 0xF0500,
    ]);
    pages.extend([0xC0000 + end - 1, 0xC0000 + end, 0xFFFFE, 0xFFFFF, 0x100000]);
    for _ in 0..6 {
        let page = numbers.pick(&pages) & 0xFFFFF;
        let above = numbers.pick(&[1 << 20, 1 << 32, 1 << 52, 1 << 63]);
        pages.push(page | above);
        pages.push(u64::from(numbers.word() >> 12));
    }
    pages.push(numbers.long());
    pages.push(u64::MAX);
    pages
}

/// What kind of page it is, for the counts.
fn kind(scene: &Scene, page: u64) -> String {
    if page > 0xFFFFF {
        return "above FFFFF".to_string();
    }
    let address = (page as u32) << 12;
    let (space, low) = if address >= 0xC000_0000 {
        ("direct", Some((address - 0xC000_0000) | 1))
    } else {
        let entry = scene.cpu.find_entry(address);
        ("mapped", entry.map(|index| scene.cpu.tlb[index].low))
    };
    match low {
        None => "miss".to_string(),
        Some(low) if low & 1 == 0 => "invalid".to_string(),
        Some(low) => match scene.answering(low & !0xFFF) {
            Some(place) => format!("{space} {place}"),
            None => format!("{space} nothing"),
        },
    }
}

/// The first entry with the page, or the direct mapping (document 02, job 2).
fn slot_of(scene: &Scene, page: u64) -> u32 {
    let high = (page as u32) << 12;
    let mut slots = (0..DIRECT_MAPPED).zip(&scene.cpu.tlb);
    let first = slots.find(|(_, entry)| entry.high == high && page < 0xC0000);
    first.map_or(DIRECT_MAPPED, |(slot, _)| slot)
}

pub fn case(numbers: &mut Numbers, counts: &mut Counts) -> Result<(), Difference> {
    let scene = machines::machine(memory(numbers), numbers);
    let mut world = World::of(&scene);
    if numbers.percent(50) {
        world.machine.resize(OLD_RECORD_LENGTH, 0);
    }
    let mut bench = Bench::new(world);
    for page in pages(&scene, numbers) {
        let kind = kind(&scene, page);
        let in_ram = kind.ends_with("RAM");
        let refusal = if in_ram { 0 } else { 8 };
        let outcome = bench.expect(Call::PageView(page), refusal, &mut counts.calls)?;
        let Outcome::View(view) = outcome else {
            return Err("no view".to_string());
        };
        let (slot, length) = match in_ram {
            true => (slot_of(&scene, page), 4096),
            false => (NO_SLOT, 0),
        };
        if (view.slot, view.length) != (slot, length) || view.offset % 4096 != 0 {
            return Err(format!("page {page:X}: {view:?}"));
        }
        counts.calls.add("page view", kind);
    }
    bench.call(Call::WriteRecord, &mut counts.calls)?;
    bench.call(Call::Reset, &mut counts.calls)?;
    bench.call(Call::ReadRecord, &mut counts.calls)?;
    Ok(())
}
