//! What the set of vectors must hold of the replacement index.

use super::mnemonics::{group, mnemonic, Group};
use super::required::{List, MODES};

pub(super) fn replacement(list: &mut List) {
    for index in 4..32 {
        for behind in ["an instruction", "a fault", "an interrupt"] {
            list.add("index", 2, format!("{index} after {behind}"));
        }
    }
    for opcode in (0..64).filter(|&op| !matches!(group(op), Group::Illegal | Group::Trap)) {
        list.add("index from 31 to 4", 1, mnemonic(opcode));
    }
    for eid in 0..26 {
        list.add("index from 31 to 4", 1, format!("EID {eid}"));
    }
    for mode in MODES {
        let item = format!("in {mode}");
        list.add("index from 31 to 4 by mode", 48, item);
    }
    for times in ["once", "twice", "three times"] {
        list.add("around in a case", 4, times);
        let item = format!("{times}, all in User Mode");
        list.add("around in a case", 2, item);
    }
    random_writes(list);
}

fn random_writes(list: &mut List) {
    for index in [4, 30, 31] {
        for last in [
            "TBWR",
            "a load",
            "a store",
            "another instruction",
            "a fault",
            "an interrupt",
        ] {
            let item = format!("at {index} right after {last}");
            list.add("TBWR", 1, item);
        }
        for n in 2..4 {
            let item = format!("{n} in a row, the last at {index}");
            list.add("TBWR", 1, item);
        }
    }
    list.add("TBWR", 2, "29 in a row");
}
