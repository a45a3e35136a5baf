//! What a step covers of the slots that serve data accesses (document 02, job
//! 2).

use super::access::width_of;
use super::mnemonics::{group, mnemonic, Group};
use super::observe::{mode_name, Observer, Step};
use crate::memory::Width;
use crate::mmu::{Access, Found, DIRECT_MAPPED, NO_SLOT};

/// The sort of a data access, if the instruction has one.
fn transfer(opcode: u32) -> Option<(&'static str, Access)> {
    match group(opcode) {
        Group::Load => Some(("load", Access::Load)),
        Group::Store => Some(("store", Access::Store)),
        _ => None,
    }
}

/// The lookup of an address in the mode of a step.
fn found(step: &Step, address: u32, width: Width, access: Access) -> Option<Found> {
    let user = step.before.user_mode();
    step.before.translate(address, width, access, user).ok()
}

impl Observer {
    pub(super) fn slots(&mut self, step: &Step) {
        match transfer(step.opcode()) {
            _ if step.slot == NO_SLOT => self.no_slot(step),
            Some((kind, access)) if step.completed() => {
                self.slot(step);
                self.slot_by_place(step, access);
                self.slot_of_doubled(step, kind);
                self.slot_beside_fetch(step, kind);
            }
            _ => {}
        }
        self.last_slot = Some(step.slot);
    }

    fn slot(&mut self, step: &Step) {
        let (name, slot) = (mnemonic(step.opcode()), step.slot);
        self.tally.add("slot", format!("{name} {slot}"));
        let item = format!("{slot} in {}", mode_name(step.before));
        self.tally.add("slot by mode", item);
        let last = match self.last_slot {
            Some(NO_SLOT) => "a step without one",
            Some(last) if last == slot => "the same",
            Some(_) => "another",
            None => return,
        };
        self.tally.add("slot right after", last);
    }

    /// What answers: a store has its slot in ROM too.
    fn slot_by_place(&mut self, step: &Step, access: Access) {
        let (name, address, slot) = (mnemonic(step.opcode()), step.address(), step.slot);
        let found = found(step, address, width_of(step.opcode()), access);
        let place = found.and_then(|found| step.scene.answering(found.physical));
        if let Some(place) = place {
            let item = format!("{name} {place} by {slot}");
            self.tally.add("slot by place", item);
        }
        // An entry of the page does not serve a direct-mapped address.
        if slot == DIRECT_MAPPED && step.before.find_entry(address).is_some() {
            self.tally.add("slot 32 beside an entry", name);
        }
    }

    /// The lower of two entries with one page number.
    fn slot_of_doubled(&mut self, step: &Step, kind: &str) {
        let page = step.address() >> 12;
        let tlb = step.before.tlb.iter().enumerate();
        let with_page = tlb.filter(|(_, entry)| entry.high >> 12 == page);
        let indexes: Vec<u32> = with_page.map(|(index, _)| index as u32).collect();
        if let [lower, higher, ..] = indexes[..] {
            if lower == step.slot {
                let item = format!("{kind} by {lower}, not by {higher}");
                self.tally.add("slot of a doubled page", item);
            }
        }
    }

    /// The fetch has a slot of its own.
    fn slot_beside_fetch(&mut self, step: &Step, kind: &str) {
        let fetch = found(step, step.before.pc, Width::Word, Access::Load);
        let Some(fetch) = fetch.map(|found| found.slot) else {
            return;
        };
        let item = match step.slot {
            slot if slot < fetch => "below that of the fetch",
            slot if slot > fetch => "above that of the fetch",
            _ => "that of the fetch",
        };
        let item = format!("{kind} {item}, {}", mode_name(step.before));
        self.tally.add("slot and fetch", item);
    }

    fn no_slot(&mut self, step: &Step) {
        let (name, eid) = (mnemonic(step.opcode()), step.eid);
        let (item, sort) = match (step.fetched, transfer(step.opcode())) {
            _ if eid < 16 => (format!("EID {eid}"), "an interrupt".to_string()),
            (Err(_), _) => (
                format!("fetch with fault {eid}"),
                "a fault of the fetch".to_string(),
            ),
            (Ok(_), _) if step.completed() => (name.to_string(), "an instruction".to_string()),
            (Ok(_), Some((kind, _))) => (
                format!("{name} with fault {eid}"),
                format!("{kind} with fault {eid}"),
            ),
            (Ok(_), None) => (format!("EID {eid}"), "another fault".to_string()),
        };
        self.tally.add("no slot", item);
        if self.last_slot.is_some_and(|last| last != NO_SLOT) {
            self.tally.add("no slot right after a slot", sort);
        }
    }
}
