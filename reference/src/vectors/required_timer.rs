//! What the set of vectors must hold of the timer.

use super::mnemonics::mnemonic;
use super::required::{List, MODES, TRANSFERS};

pub(super) fn timer(list: &mut List) {
    ticks(list);
    accesses(list);
    stores(list);
    channel_14(list);
}

fn ticks(list: &mut List) {
    for counter in ["0", "1", "2", "FFFFFFFF", "another"] {
        list.add("tick", 8, format!("none with counter {counter}"));
    }
    for counter in ["2", "FFFFFFFF", "another"] {
        list.add("tick", 8, format!("down from {counter}"));
    }
    for counter in 0..2 {
        for flag in 0..2 {
            let item = format!("wrap from {counter} with flag {flag}");
            list.add("tick", 8, item);
        }
    }
    for behind in ["an instruction", "a fault", "an interrupt"] {
        list.add("tick", 24, format!("down after {behind}"));
        list.add("tick", 12, format!("wrap after {behind}"));
    }
    list.add("tick", 8, "wrap to 1");
}

fn accesses(list: &mut List) {
    for opcode in TRANSFERS {
        let name = mnemonic(opcode);
        for place in ["control", "divisor", "rest of the frame"] {
            for mode in MODES {
                list.add("timer access", 2, format!("{name} {place} {mode}"));
            }
        }
        list.add(
            "timer access",
            2,
            format!("{name} later frames Kernel Mode"),
        );
    }
    for mode in MODES {
        for item in [
            "fetch hit",
            "fetch invalid",
            "load hit",
            "load invalid",
            "store hit",
            "store invalid",
            "store write",
        ] {
            list.add("page of the timer", 4, format!("{item} {mode}"));
        }
    }
}

fn stores(list: &mut List) {
    for was in 0..4 {
        for is in 0..4 {
            list.add("timer store", 2, format!("control {was} to {is}"));
        }
    }
    for mode in MODES {
        for divisor in ["0", "1", "2", "above 2"] {
            list.add("timer store", 2, format!("divisor {divisor} {mode}"));
        }
        let item = format!("control with bits above 1 {mode}");
        list.add("timer store", 4, item);
    }
}

fn channel_14(list: &mut List) {
    for up in ["the timer's line", "the host's line", "both lines"] {
        for outcome in [
            "accepted",
            "behind a lower channel",
            "masked by IEN",
            "disabled by I_C",
        ] {
            list.add("channel 14", 6, format!("{up}, {outcome}"));
        }
    }
    for up in ["the flag alone", "the enable bit alone"] {
        list.add("channel 14", 6, format!("{up}, no interrupt"));
    }
    for raised in ["a tick", "a store"] {
        let item = format!("accepted right after {raised}");
        list.add("channel 14", 6, item);
    }
}
