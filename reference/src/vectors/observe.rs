//! What a step covers, read off the machine before and after it.

use super::access;
use super::mnemonics::{mnemonic, MVTS, RFX};
use super::replacing::Course;
use super::scene::Scene;
use super::tally::Tally;
use crate::exception::{Fault, NO_EXCEPTION};
use crate::processor::{Processor, PSW_IC, PSW_V};
use crate::step::Stepped;

/// Operands and immediates at the edges of their ranges.
pub const EDGES: [u32; 5] = [0, 1, 0x7FFF_FFFF, 0x8000_0000, 0xFFFF_FFFF];
pub const EDGE_IMMEDIATES: [u32; 5] = [0, 1, 0x7FFF, 0x8000, 0xFFFF];
pub const EDGE_OFFSETS: [u32; 5] = [0, 1, 0x01FF_FFFF, 0x0200_0000, 0x03FF_FFFF];
pub const SHIFT_COUNTS: [u32; 4] = [0, 31, 32, 33];

pub fn mode_name(cpu: &Processor) -> &'static str {
    if cpu.user_mode() {
        "User Mode"
    } else {
        "Kernel Mode"
    }
}

/// A step: the processor before it and after it, the lengths of memory, and
/// the instruction word, or 0 if none was fetched.
pub struct Step<'a> {
    pub before: &'a Processor,
    pub after: &'a Processor,
    pub scene: &'a Scene,
    pub fetched: Result<(u32, u32), Fault>,
    pub lines: u16,
    pub eid: u32,
    pub slot: u32,
    pub word: u32,
}

impl Step<'_> {
    pub fn opcode(&self) -> u32 {
        self.word >> 26
    }

    /// Register in bits 25..21, and its contents before the step.
    pub fn x(&self) -> (u32, u32) {
        let number = self.word >> 21 & 31;
        (number, self.before.register(number))
    }

    /// Register in bits 20..16, and its contents before the step.
    pub fn y(&self) -> (u32, u32) {
        let number = self.word >> 16 & 31;
        (number, self.before.register(number))
    }

    pub fn immediate(&self) -> u32 {
        self.word & 0xFFFF
    }

    /// Address of a load or store.
    pub fn address(&self) -> u32 {
        let offset = self.immediate() as u16 as i16 as u32;
        self.x().1.wrapping_add(offset)
    }

    pub fn completed(&self) -> bool {
        self.eid == NO_EXCEPTION
    }

    /// Lines of all channels, the host's and the timer's.
    fn channels(&self) -> u32 {
        u32::from(self.lines | self.before.timer.lines())
    }
}

#[derive(Default)]
pub struct Observer {
    pub tally: Tally,
    /// Opcode that completed in the step before, within one case.
    previous: Option<u32>,
    /// What raised the timer's line in the step before.
    pub(super) raised: Option<&'static str>,
    /// The replacement index in the present case.
    pub(super) course: Course,
    /// Slot that the step before told.
    pub(super) last_slot: Option<u32>,
}

impl Observer {
    /// A case of so many steps begins.
    pub fn begin(&mut self, steps: usize) {
        self.previous = None;
        self.raised = None;
        self.course = Course::default();
        self.last_slot = None;
        self.tally.add("set", "cases");
        let length = match steps {
            0..=1 => "of 1 step",
            2..=5 => "of 2 to 5 steps",
            6..=12 => "of 6 to 12 steps",
            _ => "of more steps",
        };
        self.tally.add("cases", length);
    }

    /// Makes a step of a scene and counts what it covers.
    pub fn step(&mut self, scene: &mut Scene, lines: u16) -> Stepped {
        let fetched = scene.fetched();
        let before = scene.cpu.clone();
        let stepped = scene.step(lines);
        self.count(&Step {
            before: &before,
            after: &scene.cpu,
            scene,
            fetched,
            lines,
            eid: stepped.eid,
            slot: stepped.slot,
            word: fetched.map_or(0, |(_, word)| word),
        });
        stepped
    }

    fn count(&mut self, step: &Step) {
        self.general(step);
        self.timer(step);
        self.replacement(step);
        self.slots(step);
        self.interrupt_lines(step);
        if step.eid < 16 {
            self.accepted_interrupt(step);
            self.previous = None;
            return;
        }
        self.program_counter(step);
        match step.fetched {
            Ok((physical, _)) => {
                self.fetched(step, physical);
                self.instruction(step);
                self.previous = step.completed().then_some(step.opcode());
            }
            Err(fault) => {
                let item = format!("{} in {}", fault.eid(), mode_name(step.before));
                self.tally.add("fault of the fetch", item);
                let pc = step.before.pc;
                access::translation(&mut self.tally, step.before, pc, "fetch", step.eid);
                self.previous = None;
            }
        }
    }

    fn general(&mut self, step: &Step) {
        self.tally.add("set", "steps");
        self.tally
            .add("steps", format!("in {}", mode_name(step.before)));
        let v = u32::from(step.before.psw & PSW_V != 0);
        self.tally.add("steps", format!("with V {v}"));
        if step.completed() {
            return;
        }
        let eid = step.eid;
        self.tally.add("exception", format!("EID {eid}"));
        self.tally.add("exception by V", format!("EID {eid} V {v}"));
        let item = format!("EID {eid} {}", mode_name(step.before));
        self.tally.add("exception by mode", item);
        let stacks = step.before.psw >> 21 & 63;
        self.tally
            .add("PSW stacks at entry", format!("{stacks:02o}"));
    }

    /// Lines that no interrupt answers.
    fn interrupt_lines(&mut self, step: &Step) {
        let psw = step.before.psw;
        let ready = step.channels() & psw;
        if step.channels() != 0 && ready == 0 && psw & PSW_IC != 0 {
            self.tally.add("interrupt", "masked by IEN");
        }
        if ready != 0 && psw & PSW_IC == 0 {
            self.tally.add("interrupt", "disabled by I_C");
        }
    }

    fn accepted_interrupt(&mut self, step: &Step) {
        let (channel, psw) = (step.eid, step.before.psw);
        let ready = step.channels() & psw;
        let alone = if ready.count_ones() == 1 {
            "alone"
        } else {
            "among several"
        };
        self.tally.add("channel", format!("{channel} {alone}"));
        if step.channels() & !psw & ((1 << channel) - 1) != 0 {
            self.tally.add("interrupt", "above a masked line");
        }
        let instead = match step.fetched {
            Err(fault) => format!("before a fetch with fault {}", fault.eid()),
            Ok((_, word)) => format!("before {}", mnemonic(word >> 26)),
        };
        self.tally.add("interrupt", instead);
        if let Some(opcode @ (MVTS | RFX)) = self.previous {
            self.tally
                .add("interrupt", format!("right after {}", mnemonic(opcode)));
        }
        if step.before.pc == 0xFFFF_FFFC {
            self.tally.add("PC", "FFFFFFFC interrupted");
        }
    }

    fn program_counter(&mut self, step: &Step) {
        let (pc, next) = (step.before.pc, step.after.pc);
        if pc % 4 != 0 {
            self.tally.add("PC", format!("ends in {}", pc % 4));
        }
        if pc == 0xFFFF_FFFC {
            self.tally.add("PC", format!("FFFFFFFC, EID {}", step.eid));
        }
        if step.completed() && pc < 0x0000_1000 && next >= 0xFFFF_0000 {
            self.tally.add("PC", "back past 00000000");
        }
        for edge in [0x8000_0000, 0xC000_0000, 0xF000_0008] {
            if step.completed() && pc == edge - 4 && next == edge {
                self.tally.add("PC", format!("on to {edge:08X}"));
            }
        }
    }

    fn fetched(&mut self, step: &Step, physical: u32) {
        let pc = step.before.pc;
        let how = if pc < 0xC000_0000 { "mapped" } else { "direct" };
        if let Some(place) = step.scene.answering(physical) {
            self.tally.add("fetch", format!("{place} {how}"));
        }
        access::translation(&mut self.tally, step.before, pc, "fetch", NO_EXCEPTION);
    }
}
