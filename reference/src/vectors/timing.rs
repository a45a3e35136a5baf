//! What a step covers of the timer.

use super::mnemonics::mnemonic;
use super::observe::{mode_name, Observer, Step};
use super::tally::Tally;
use crate::memory::Width;
use crate::mmu::Access;
use crate::processor::PSW_IC;
use crate::timer::{register_at, Register, Timer, LINE, WRAP};

const STW: u32 = 0x35;

impl Step<'_> {
    /// The timer's register that the step has stored to.
    fn stored(&self) -> Option<Register> {
        if !self.completed() || self.opcode() != STW {
            return None;
        }
        let user = self.before.user_mode();
        let reached = self
            .before
            .translate(self.address(), Width::Word, Access::Store, user);
        register_at(reached.ok()?.physical, Width::Word)
    }
}

/// Counts a data access that reaches the timer's addresses (manual 5.1).
pub fn access(tally: &mut Tally, step: &Step, physical: u32) {
    let place = match physical {
        0x3000_0000..=0x3000_0003 => "control",
        0x3000_0004..=0x3000_0007 => "divisor",
        0x3000_0008..=0x3000_0FFF => "rest of the frame",
        0x3000_1000..=0x300F_FFFF => "later frames",
        _ => return,
    };
    let (name, mode) = (mnemonic(step.opcode()), mode_name(step.before));
    tally.add("timer access", format!("{name} {place} {mode}"));
}

impl Observer {
    pub(super) fn timer(&mut self, step: &Step) {
        self.channel_14(step);
        let mut timer = step.before.timer;
        if let Some(register) = step.stored() {
            self.timer_store(step, register);
            timer.store(register, step.y().1);
        }
        self.tick(step, &timer);
        let (was, is) = (step.before.timer.lines(), step.after.timer.lines());
        self.raised = match timer.lines() {
            _ if was != 0 || is == 0 => None,
            0 => Some("a tick"),
            _ => Some("a store"),
        };
    }

    fn timer_store(&mut self, step: &Step, register: Register) {
        let (value, mode) = (step.y().1, mode_name(step.before));
        let item = match (register, value) {
            (Register::Divisor, 0..=2) => format!("divisor {value} {mode}"),
            (Register::Divisor, _) => format!("divisor above 2 {mode}"),
            (Register::Control, _) => {
                let was = step.before.timer.control;
                format!("control {was} to {}", value & 3)
            }
        };
        self.tally.add("timer store", item);
        if register == Register::Control && value > 3 {
            let item = format!("control with bits above 1 {mode}");
            self.tally.add("timer store", item);
        }
    }

    /// The tick of a step, from the timer as the step's own effects left it.
    fn tick(&mut self, step: &Step, timer: &Timer) {
        let counter = match timer.counter {
            0..=2 => timer.counter.to_string(),
            0xFFFF_FFFF => "FFFFFFFF".to_string(),
            _ => "another".to_string(),
        };
        if timer.divisor == 0 {
            let item = format!("none with counter {counter}");
            return self.tally.add("tick", item);
        }
        let behind = match step.eid {
            0..=15 => "an interrupt",
            16..=25 => "a fault",
            _ => "an instruction",
        };
        if timer.counter > 1 {
            self.tally.add("tick", format!("down from {counter}"));
            self.tally.add("tick", format!("down after {behind}"));
            return;
        }
        let flag = timer.control & WRAP;
        let item = format!("wrap from {counter} with flag {flag}");
        self.tally.add("tick", item);
        self.tally.add("tick", format!("wrap after {behind}"));
        if timer.divisor == 1 {
            self.tally.add("tick", "wrap to 1");
        }
    }

    /// Channel 14: the host's line, the timer's, and what comes of them.
    fn channel_14(&mut self, step: &Step) {
        let (psw, timer) = (step.before.psw, &step.before.timer);
        let (by_host, by_timer) = (step.lines & LINE != 0, timer.lines() != 0);
        let up = match (by_host, by_timer, timer.control) {
            (true, true, _) => "both lines",
            (true, false, _) => "the host's line",
            (false, true, _) => "the timer's line",
            (false, false, 0) => return,
            (false, false, WRAP) => "the flag alone",
            (false, false, _) => "the enable bit alone",
        };
        let enabled = psw & u32::from(LINE) != 0;
        let outcome = match step.eid {
            14 => "accepted",
            _ if psw & PSW_IC == 0 => "disabled by I_C",
            _ if !enabled => "masked by IEN",
            0..=13 => "behind a lower channel",
            _ => "no interrupt",
        };
        self.tally.add("channel 14", format!("{up}, {outcome}"));
        if let (14, Some(raised)) = (step.eid, self.raised) {
            let item = format!("accepted right after {raised}");
            self.tally.add("channel 14", item);
        }
    }
}
