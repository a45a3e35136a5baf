//! What translations and data accesses cover.

use super::mnemonics::{group, mnemonic, Group};
use super::observe::{mode_name, Step};
use super::scene::Region;
use super::tally::Tally;
use super::timing;
use crate::memory::Width;
use crate::mmu::Access;
use crate::processor::Processor;
use crate::timer::CONTROL_ADDRESS;

/// How far past the end of a region counts as just past it.
const NEAR: u32 = 64;

pub fn width_of(opcode: u32) -> Width {
    match opcode {
        0x30 | 0x35 => Width::Word,
        0x31 | 0x32 | 0x36 => Width::Half,
        _ => Width::Byte,
    }
}

/// Counts a translation by the TLB: `kind` is fetch, load or store, `eid` the
/// fault of the access or 32.
pub fn translation(tally: &mut Tally, cpu: &Processor, address: u32, kind: &str, eid: u32) {
    if address >= 0xC000_0000 || matches!(eid, 24 | 25) {
        return;
    }
    let space = if address < 0x8000_0000 {
        "below 80000000"
    } else {
        "from 80000000"
    };
    let mode = mode_name(cpu);
    let result = match eid {
        21 => "miss",
        22 => "write",
        23 => "invalid",
        _ => "hit",
    };
    tally.add("TLB", format!("{kind} {result} {space} {mode}"));
    if let Some(index) = cpu.find_entry(address) {
        if eid == 16 && cpu.tlb[index].low >= 0x4000_0000 {
            tally.add("frame from 40000000", kind);
        }
        if cpu.tlb[index].low & !3 == CONTROL_ADDRESS {
            tally.add("page of the timer", format!("{kind} {result} {mode}"));
        }
    }
    let lows: Vec<u32> = cpu
        .tlb
        .iter()
        .filter(|entry| entry.high >> 12 == address >> 12)
        .map(|entry| entry.low)
        .collect();
    if let [lower, higher, ..] = lows[..] {
        if lower != higher {
            doubled(tally, kind, lower, higher);
        }
    }
}

/// Two different entries with one page number.
fn doubled(tally: &mut Tally, kind: &str, lower: u32, higher: u32) {
    let item = match (lower & 3, higher & 3) {
        (0 | 2, 1 | 3) => "lower invalid, higher valid",
        (1 | 3, 0 | 2) => "lower valid, higher invalid",
        (1, 3) => "lower read-only, higher writable",
        (3, 1) => "lower writable, higher read-only",
        _ => "the same bits",
    };
    tally.add("doubled page", format!("{kind}, {item}"));
}

/// Counts the data access of a load or store.
pub fn data(tally: &mut Tally, step: &Step) {
    let (opcode, address) = (step.opcode(), step.address());
    let (name, eid) = (mnemonic(opcode), step.eid);
    let (kind, access) = if group(opcode) == Group::Load {
        ("load", Access::Load)
    } else {
        ("store", Access::Store)
    };
    translation(tally, step.before, address, kind, eid);
    if !step.completed() {
        tally.add("fault of the data access", format!("{name} {eid}"));
        order(tally, step, address);
    } else {
        let immediate = step.immediate();
        tally.add("immediate", format!("{name} {immediate:04X}"));
        if kind == "load" && step.y().0 == 0 {
            tally.add("destination register 0", name);
        }
    }
    wrapped(tally, step, address);
    let user = step.before.user_mode();
    let reached = step
        .before
        .translate(address, width_of(opcode), access, user);
    if let Ok(found) = reached {
        place(tally, step, found.physical);
    }
}

/// Where the access goes, or past which end.
fn place(tally: &mut Tally, step: &Step, physical: u32) {
    let name = mnemonic(step.opcode());
    if let Some(place) = step.scene.answering(physical) {
        let item = match step.eid {
            16 => format!("{name} {place} 16"),
            _ => format!("{name} {place}"),
        };
        tally.add("data access", item);
    }
    timing::access(tally, step, physical);
    for region in Region::ALL {
        let end = region.base() + step.scene.length(region);
        if physical.checked_sub(end).is_some_and(|past| past < NEAR) {
            let item = format!("{name} past {}", region.name());
            tally.add("past the end", item);
        }
        if region
            .base()
            .checked_sub(physical)
            .is_some_and(|by| by > 0 && by < NEAR)
        {
            let item = format!("{name} before {}", region.name());
            tally.add("past the end", item);
        }
    }
}

/// Addresses that are sums past an end of the 32 bits.
fn wrapped(tally: &mut Tally, step: &Step, address: u32) {
    let (x, negative) = (step.x().1, step.immediate() >= 0x8000);
    if !negative && address < x {
        tally.add("address", "sum past FFFFFFFF");
    }
    if negative && address > x {
        tally.add("address", "sum back past 00000000");
    }
}

/// Accesses that break several rules, of which the first gives the fault.
fn order(tally: &mut Tally, step: &Step, address: u32) {
    let bytes = width_of(step.opcode()).bytes() as u32;
    let unaligned = !address.is_multiple_of(bytes);
    let user = step.before.user_mode();
    if unaligned && user && address >= 0x8000_0000 {
        tally.add("order of faults", "alignment before privilege");
    }
    if unaligned && address < 0xC000_0000 && step.before.find_entry(address).is_none() {
        tally.add("order of faults", "alignment before a miss");
    }
    if !unaligned && user && (0x8000_0000..0xC000_0000).contains(&address) {
        tally.add("order of faults", "privilege before the TLB");
    }
    let store = group(step.opcode()) == Group::Store;
    let Some(index) = step.before.find_entry(address) else {
        return;
    };
    if store && step.eid == 23 && step.before.tlb[index].low & 3 == 0 {
        tally.add("order of faults", "valid bit before write bit");
    }
    let frame = step.before.tlb[index].low & !3;
    if store && step.eid == 22 && step.scene.answering(frame).is_none() {
        tally.add("order of faults", "write bit before bus timeout");
    }
}
