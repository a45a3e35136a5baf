//! What the set of vectors must hold of the slots.

use super::mnemonics::{group, mnemonic, Group};
use super::required::{List, MODES, TRANSFERS};
use super::slots::{DOUBLED, SLOTS_BY_PLACE};

pub(super) fn slots(list: &mut List) {
    for opcode in TRANSFERS {
        for slot in 0..=32 {
            list.add("slot", 2, format!("{} {slot}", mnemonic(opcode)));
        }
    }
    for slot in 0..32 {
        for mode in MODES {
            list.add("slot by mode", 8, format!("{slot} in {mode}"));
        }
    }
    list.add("slot by mode", 24, "32 in Kernel Mode");
    for last in ["a step without one", "the same", "another"] {
        list.add("slot right after", 24, last);
    }
    places(list);
    doubled(list);
    beside_the_fetch(list);
    without(list);
    right_after_a_slot(list);
}

fn places(list: &mut List) {
    for opcode in TRANSFERS {
        let name = mnemonic(opcode);
        let places = match name {
            "LDW" | "STW" => &["RAM", "ROM", "belt", "timer"][..],
            _ => &["RAM", "ROM"],
        };
        for place in places {
            for slot in SLOTS_BY_PLACE.into_iter().chain([32]) {
                let item = format!("{name} {place} by {slot}");
                list.add("slot by place", 2, item);
            }
        }
    }
    for opcode in TRANSFERS {
        list.add("slot 32 beside an entry", 2, mnemonic(opcode));
    }
}

fn doubled(list: &mut List) {
    for kind in ["load", "store"] {
        for (_, slots) in DOUBLED {
            let (lower, higher) = (slots[0], slots[1]);
            let item = format!("{kind} by {lower}, not by {higher}");
            list.add("slot of a doubled page", 6, item);
        }
    }
}

fn beside_the_fetch(list: &mut List) {
    for kind in ["load", "store"] {
        for mode in MODES {
            for beside in ["below that", "that", "above that"] {
                let item = format!("{kind} {beside} of the fetch, {mode}");
                list.add("slot and fetch", 12, item);
            }
        }
    }
}

fn without(list: &mut List) {
    let completing = |opcode: &u32| {
        let group = group(*opcode);
        !matches!(group, Group::Illegal | Group::Trap) && !TRANSFERS.contains(opcode)
    };
    for opcode in (0..64).filter(completing) {
        list.add("no slot", 36, mnemonic(opcode));
    }
    for eid in (0..16).chain(17..21) {
        list.add("no slot", 36, format!("EID {eid}"));
    }
    for eid in [16, 21, 23, 24, 25] {
        list.add("no slot", 8, format!("fetch with fault {eid}"));
    }
    for opcode in TRANSFERS {
        let (name, store) = (mnemonic(opcode), opcode >= 0x35);
        for eid in [16, 21, 22, 23, 24, 25] {
            let byte = matches!(name, "LDB" | "LDBU" | "STB");
            if (eid != 22 || store) && (eid != 24 || !byte) {
                list.add("no slot", 4, format!("{name} with fault {eid}"));
            }
        }
    }
}

fn right_after_a_slot(list: &mut List) {
    for sort in [
        "an instruction",
        "an interrupt",
        "a fault of the fetch",
        "another fault",
    ] {
        list.add("no slot right after a slot", 8, sort);
    }
    for kind in ["load", "store"] {
        for eid in [16, 21, 22, 23, 24, 25] {
            if eid != 22 || kind == "store" {
                let item = format!("{kind} with fault {eid}");
                list.add("no slot right after a slot", 2, item);
            }
        }
    }
}
