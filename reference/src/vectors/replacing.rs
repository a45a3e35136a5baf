//! What a step covers of the replacement index.

use super::mnemonics::{group, mnemonic, Group, TBWR};
use super::observe::{mode_name, Observer, Step};
use crate::processor::{FIRST_REPLACED, LAST_REPLACED};

/// A case up to the present step.
#[derive(Default)]
pub struct Course {
    /// What the step before was.
    last: Option<&'static str>,
    /// TBWR in a row, up to the step before.
    row: usize,
    /// How often the index has gone from 31 to 4.
    around: usize,
    /// Steps outside User Mode.
    kernel: usize,
}

/// How a step ended.
fn behind(eid: u32) -> &'static str {
    match eid {
        0..=15 => "an interrupt",
        16..=25 => "a fault",
        _ => "an instruction",
    }
}

fn sort(step: &Step) -> &'static str {
    match group(step.opcode()) {
        _ if !step.completed() => behind(step.eid),
        _ if step.opcode() == TBWR => "TBWR",
        Group::Load => "a load",
        Group::Store => "a store",
        _ => "another instruction",
    }
}

impl Observer {
    pub(super) fn replacement(&mut self, step: &Step) {
        let index = step.before.replacement;
        let item = format!("{index} after {}", behind(step.eid));
        self.tally.add("index", item);
        self.course.kernel += usize::from(!step.before.user_mode());
        if (index, step.after.replacement) == (LAST_REPLACED, FIRST_REPLACED) {
            self.around(step);
        }
        let sort = sort(step);
        if sort == "TBWR" {
            self.random_write(index);
        } else {
            self.course.row = 0;
        }
        self.course.last = Some(sort);
    }

    /// The index goes from 31 to 4.
    fn around(&mut self, step: &Step) {
        let item = match step.completed() {
            true => mnemonic(step.opcode()).to_string(),
            false => format!("EID {}", step.eid),
        };
        self.tally.add("index from 31 to 4", item);
        let item = format!("in {}", mode_name(step.before));
        self.tally.add("index from 31 to 4 by mode", item);
        self.course.around += 1;
        let times = match self.course.around {
            1 => "once",
            2 => "twice",
            3 => "three times",
            _ => return,
        };
        self.tally.add("around in a case", times);
        if self.course.kernel == 0 {
            let item = format!("{times}, all in User Mode");
            self.tally.add("around in a case", item);
        }
    }

    fn random_write(&mut self, index: u8) {
        if let Some(last) = self.course.last {
            let item = format!("at {index} right after {last}");
            self.tally.add("TBWR", item);
        }
        self.course.row += 1;
        let row = match self.course.row {
            n @ 2..=3 => format!("{n} in a row, the last at {index}"),
            29 => "29 in a row".to_string(),
            _ => return,
        };
        self.tally.add("TBWR", row);
    }
}
