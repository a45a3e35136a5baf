//! What the set of vectors must hold.

use super::mnemonics::{group, ignored_bits, mnemonic, opcodes, Group};
use super::observe::{EDGES, EDGE_IMMEDIATES, EDGE_OFFSETS, SHIFT_COUNTS};
use super::required_replacement::replacement;
use super::required_slots::slots;
use super::required_timer::timer;
use super::tally::Required;

pub(super) const MODES: [&str; 2] = ["User Mode", "Kernel Mode"];
pub(super) const TRANSFERS: std::ops::RangeInclusive<u32> = 0x30..=0x37;
/// Special register numbers that the set moves from and to.
pub const SPECIAL_NUMBERS: [u32; 9] = [0, 1, 2, 3, 4, 5, 0x0100, 0x8000, 0xFFFF];

/// List of required items, built heading by heading.
#[derive(Default)]
pub(super) struct List(Vec<Required>);

impl List {
    pub(super) fn add(&mut self, heading: &'static str, least: u64, item: impl Into<String>) {
        self.0.push(Required {
            heading,
            item: item.into(),
            least,
        });
    }

    fn all(&mut self, heading: &'static str, least: u64, items: &[&str]) {
        for &item in items {
            self.add(heading, least, item);
        }
    }
}

pub fn required() -> Vec<Required> {
    let mut list = List::default();
    list.add("set", 4_000, "cases");
    list.add("set", 20_000, "steps");
    sizes(&mut list);
    instructions(&mut list);
    exceptions(&mut list);
    operands(&mut list);
    immediates(&mut list);
    control(&mut list);
    accesses(&mut list);
    translations(&mut list);
    system(&mut list);
    interrupts(&mut list);
    timer(&mut list);
    replacement(&mut list);
    slots(&mut list);
    list.0
}

fn sizes(list: &mut List) {
    list.all(
        "cases",
        100,
        &[
            "of 1 step",
            "of 2 to 5 steps",
            "of 6 to 12 steps",
            "of more steps",
        ],
    );
    list.all(
        "steps",
        2_000,
        &["in User Mode", "in Kernel Mode", "with V 0", "with V 1"],
    );
}

fn instructions(list: &mut List) {
    let completing = || (0..64).filter(|&op| !matches!(group(op), Group::Illegal | Group::Trap));
    for opcode in completing() {
        list.add("completed", 36, mnemonic(opcode));
    }
    for opcode in completing() {
        for mode in MODES {
            if group(opcode) != Group::Privileged || mode == "Kernel Mode" {
                let item = format!("{} {mode}", mnemonic(opcode));
                list.add("completed by mode", 8, item);
            }
        }
    }
    for opcode in (0..64).filter(|&op| ignored_bits(op) != 0) {
        for mode in MODES {
            let item = format!("{} {mode}", mnemonic(opcode));
            list.add("ignored bits set", 4, item);
        }
    }
    list.all("trap", 24, &MODES);
    for opcode in opcodes(Group::Illegal) {
        for mode in MODES {
            list.add("illegal", 12, format!("{} in {mode}", mnemonic(opcode)));
        }
    }
    for opcode in opcodes(Group::Privileged) {
        list.add("refused by 18", 12, mnemonic(opcode));
    }
}

fn exceptions(list: &mut List) {
    for eid in 0..26 {
        list.add("exception", 36, format!("EID {eid}"));
    }
    for eid in 0..26 {
        for v in 0..2 {
            list.add("exception by V", 8, format!("EID {eid} V {v}"));
        }
    }
    for eid in 0..26 {
        list.add("exception by mode", 8, format!("EID {eid} User Mode"));
        if eid != 18 && eid != 25 {
            list.add("exception by mode", 8, format!("EID {eid} Kernel Mode"));
        }
    }
    for stacks in 0..64 {
        list.add("PSW stacks at entry", 2, format!("{stacks:02o}"));
    }
}

fn operands(list: &mut List) {
    for opcode in opcodes(Group::Register).chain(opcodes(Group::Branch)) {
        for (x, y) in EDGES.iter().flat_map(|x| EDGES.iter().map(move |y| (x, y))) {
            let item = format!("{} {x:08X} {y:08X}", mnemonic(opcode));
            list.add("edge operands", 1, item);
        }
    }
    for opcode in opcodes(Group::Immediate) {
        for (x, y) in EDGES
            .iter()
            .flat_map(|x| EDGE_IMMEDIATES.iter().map(move |y| (x, y)))
        {
            let item = format!("{} {x:08X} {y:04X}", mnemonic(opcode));
            list.add("edge operand and immediate", 1, item);
        }
    }
    let writers = (0..64).filter(|&op| {
        matches!(group(op), Group::Register | Group::Immediate | Group::Load) || op == 0x38
    });
    for opcode in writers {
        list.add("destination register 0", 2, mnemonic(opcode));
    }
}

fn immediates(list: &mut List) {
    let branches = opcodes(Group::Immediate).chain(opcodes(Group::Branch));
    for opcode in branches.chain(TRANSFERS) {
        for immediate in EDGE_IMMEDIATES {
            let item = format!("{} {immediate:04X}", mnemonic(opcode));
            list.add("immediate", 2, item);
        }
    }
    for opcode in 0x18..=0x1D {
        for count in SHIFT_COUNTS {
            list.add("shift count", 4, format!("{} {count}", mnemonic(opcode)));
        }
    }
    for opcode in 0x08..=0x0F {
        list.add("division by 0", 5, mnemonic(opcode));
    }
}

fn control(list: &mut List) {
    for opcode in opcodes(Group::Branch) {
        for way in ["taken", "not taken"] {
            list.add("branch", 8, format!("{} {way}", mnemonic(opcode)));
        }
    }
    for opcode in opcodes(Group::Jump) {
        for offset in EDGE_OFFSETS {
            let item = format!("{} {offset:07X}", mnemonic(opcode));
            list.add("long offset", 2, item);
        }
    }
    for name in ["JR", "JALR"] {
        for through in ["R0", "R31", "unaligned"] {
            list.add("jump through", 4, format!("{name} {through}"));
        }
    }
    list.all(
        "PC",
        2,
        &[
            "ends in 1",
            "ends in 2",
            "ends in 3",
            "on to 80000000",
            "on to C0000000",
            "on to F0000008",
            "back past 00000000",
            "FFFFFFFC, EID 16",
            "FFFFFFFC, EID 25",
            "FFFFFFFC interrupted",
        ],
    );
}

fn accesses(list: &mut List) {
    for region in ["RAM", "ROM", "belt", "timer"] {
        list.add("fetch", 24, format!("{region} direct"));
        list.add("fetch", 24, format!("{region} mapped"));
    }
    for eid in [16, 21, 23, 24, 25] {
        list.add("fault of the fetch", 8, format!("{eid} in User Mode"));
        if eid != 25 {
            list.add("fault of the fetch", 8, format!("{eid} in Kernel Mode"));
        }
    }
    for opcode in TRANSFERS {
        let name = mnemonic(opcode);
        let word = matches!(name, "LDW" | "STW");
        for place in ["RAM", "ROM"] {
            list.add("data access", 6, format!("{name} {place}"));
        }
        // These answer to words alone.
        for place in ["belt", "timer"] {
            let fault = if word { "" } else { " 16" };
            list.add("data access", 6, format!("{name} {place}{fault}"));
        }
    }
    data_faults(list);
}

fn data_faults(list: &mut List) {
    for opcode in TRANSFERS {
        for place in [
            "past RAM",
            "before ROM",
            "past ROM",
            "before belt",
            "past belt",
        ] {
            let item = format!("{} {place}", mnemonic(opcode));
            list.add("past the end", 2, item);
        }
    }
    for opcode in TRANSFERS {
        let (name, store) = (mnemonic(opcode), opcode >= 0x35);
        for eid in [16, 21, 22, 23, 24, 25] {
            let byte = matches!(name, "LDB" | "LDBU" | "STB");
            if (eid != 22 || store) && (eid != 24 || !byte) {
                list.add("fault of the data access", 4, format!("{name} {eid}"));
            }
        }
    }
    let sums = ["sum past FFFFFFFF", "sum back past 00000000"];
    list.all("address", 4, &sums);
}

fn translations(list: &mut List) {
    for kind in ["fetch", "load", "store"] {
        for result in ["hit", "miss", "invalid", "write"] {
            if result == "write" && kind != "store" {
                continue;
            }
            for rest in [
                "below 80000000 User Mode",
                "below 80000000 Kernel Mode",
                "from 80000000 Kernel Mode",
            ] {
                list.add("TLB", 6, format!("{kind} {result} {rest}"));
            }
        }
    }
    let kinds = ["fetch", "load", "store"];
    list.all("frame from 40000000", 8, &kinds);
    for kind in kinds {
        for item in [
            "lower invalid, higher valid",
            "lower valid, higher invalid",
            "lower read-only, higher writable",
            "lower writable, higher read-only",
            "the same bits",
        ] {
            list.add("doubled page", 2, format!("{kind}, {item}"));
        }
    }
    list.all(
        "order of faults",
        2,
        &[
            "alignment before privilege",
            "alignment before a miss",
            "privilege before the TLB",
            "valid bit before write bit",
            "write bit before bus timeout",
        ],
    );
}

fn system(list: &mut List) {
    for number in SPECIAL_NUMBERS {
        list.add("system", 2, format!("MVFS {number:04X}"));
        list.add("system", 2, format!("MVTS {number:04X} all ones"));
    }
    list.all("system", 12, &["TBS with a match", "TBS without a match"]);
    for index in 4..32 {
        list.add("system", 2, format!("TBWR at {index}"));
    }
    for name in ["TBRI", "TBWI"] {
        for bit in 0..2 {
            list.add("system", 12, format!("{name} with bit 31 {bit}"));
        }
    }
    for name in ["TBRI", "TBWI"] {
        for index in 0..32 {
            list.add("TLB index", 1, format!("{name} {index}"));
        }
    }
    for stacks in 0..64 {
        list.add("RFX from PSW stacks", 1, format!("{stacks:02o}"));
    }
}

fn interrupts(list: &mut List) {
    for channel in 0..16 {
        list.add("channel", 4, format!("{channel} alone"));
        if channel < 15 {
            list.add("channel", 4, format!("{channel} among several"));
        }
    }
    let fetch = ["16", "21", "23", "24", "25"];
    for eid in fetch {
        list.add("interrupt", 2, format!("before a fetch with fault {eid}"));
    }
    list.all(
        "interrupt",
        4,
        &[
            "before TRAP",
            "before 3F",
            "before RFX",
            "before DIV",
            "before STW",
            "right after MVTS",
            "right after RFX",
            "above a masked line",
        ],
    );
    list.all("interrupt", 24, &["masked by IEN", "disabled by I_C"]);
}
