//! What an instruction covers by its operands and its effect.

use super::access;
use super::mnemonics::{
    group, ignored_bits, mnemonic, Group, MVFS, MVTS, RFX, TBRI, TBS, TBWI, TBWR,
};
use super::observe::{
    mode_name, Observer, Step, EDGES, EDGE_IMMEDIATES, EDGE_OFFSETS, SHIFT_COUNTS,
};

impl Observer {
    pub(super) fn instruction(&mut self, step: &Step) {
        let (opcode, mode) = (step.opcode(), mode_name(step.before));
        let name = mnemonic(opcode);
        if step.completed() {
            self.tally.add("completed", name);
            self.tally
                .add("completed by mode", format!("{name} {mode}"));
        }
        if ignored_bits(opcode) & step.word != 0 {
            self.tally.add("ignored bits set", format!("{name} {mode}"));
        }
        match group(opcode) {
            Group::Illegal => self.tally.add("illegal", format!("{name} in {mode}")),
            Group::Trap => self.tally.add("trap", mode),
            Group::Register => self.register_operands(step),
            Group::Immediate => self.immediate_operands(step),
            Group::Branch => self.branch(step),
            Group::Jump => self.long_offset(step),
            Group::Indirect => self.indirect(step),
            Group::Load | Group::Store => access::data(&mut self.tally, step),
            Group::Privileged if step.completed() => self.system(step),
            Group::Privileged => {
                self.tally.add("refused by 18", name);
                if opcode == RFX {
                    let stacks = step.before.psw >> 21 & 63;
                    self.tally
                        .add("RFX from PSW stacks", format!("{stacks:02o}"));
                }
            }
        }
    }

    fn edge_pair(&mut self, heading: &'static str, step: &Step) {
        let ((_, x), (_, y)) = (step.x(), step.y());
        if EDGES.contains(&x) && EDGES.contains(&y) {
            let name = mnemonic(step.opcode());
            self.tally.add(heading, format!("{name} {x:08X} {y:08X}"));
        }
    }

    fn register_operands(&mut self, step: &Step) {
        let name = mnemonic(step.opcode());
        self.edge_pair("edge operands", step);
        let count = step.y().1;
        if step.opcode() >= 0x18 && SHIFT_COUNTS.contains(&count) {
            self.tally.add("shift count", format!("{name} {count}"));
        }
        if step.word >> 11 & 31 == 0 {
            self.tally.add("destination register 0", name);
        }
        self.division(step, step.y().1);
    }

    fn immediate_operands(&mut self, step: &Step) {
        let (opcode, immediate) = (step.opcode(), step.immediate());
        let (name, x) = (mnemonic(opcode), step.x().1);
        self.edge_immediate(step);
        if EDGES.contains(&x) && EDGE_IMMEDIATES.contains(&immediate) {
            let item = format!("{name} {x:08X} {immediate:04X}");
            self.tally.add("edge operand and immediate", item);
        }
        if (0x18..=0x1D).contains(&opcode) && SHIFT_COUNTS.contains(&immediate) {
            self.tally.add("shift count", format!("{name} {immediate}"));
        }
        if step.y().0 == 0 {
            self.tally.add("destination register 0", name);
        }
        self.division(step, immediate);
    }

    fn edge_immediate(&mut self, step: &Step) {
        let immediate = step.immediate();
        if EDGE_IMMEDIATES.contains(&immediate) {
            let item = format!("{} {immediate:04X}", mnemonic(step.opcode()));
            self.tally.add("immediate", item);
        }
    }

    fn division(&mut self, step: &Step, divisor: u32) {
        if (0x08..=0x0F).contains(&step.opcode()) && divisor == 0 {
            self.tally.add("division by 0", mnemonic(step.opcode()));
        }
    }

    fn branch(&mut self, step: &Step) {
        let taken = step.after.pc != step.before.pc.wrapping_add(4);
        let way = if taken { "taken" } else { "not taken" };
        self.tally
            .add("branch", format!("{} {way}", mnemonic(step.opcode())));
        self.edge_pair("edge operands", step);
        self.edge_immediate(step);
    }

    fn long_offset(&mut self, step: &Step) {
        let offset = step.word & 0x03FF_FFFF;
        if EDGE_OFFSETS.contains(&offset) {
            let item = format!("{} {offset:07X}", mnemonic(step.opcode()));
            self.tally.add("long offset", item);
        }
    }

    fn indirect(&mut self, step: &Step) {
        let name = mnemonic(step.opcode());
        let (register, target) = step.x();
        if register == 31 || register == 0 {
            self.tally
                .add("jump through", format!("{name} R{register}"));
        }
        if target % 4 != 0 {
            self.tally.add("jump through", format!("{name} unaligned"));
        }
    }

    fn system(&mut self, step: &Step) {
        let (cpu, after) = (step.before, step.after);
        let bit_31 = cpu.tlb_index >> 31;
        let index = cpu.tlb_index & 31;
        let (number, name) = (step.immediate(), mnemonic(step.opcode()));
        let item = match step.opcode() {
            RFX => {
                let stacks = cpu.psw >> 21 & 63;
                self.tally
                    .add("RFX from PSW stacks", format!("{stacks:02o}"));
                return;
            }
            MVFS => {
                if step.y().0 == 0 {
                    self.tally.add("destination register 0", name);
                }
                format!("MVFS {number:04X}")
            }
            MVTS if step.y().1 == 0xFFFF_FFFF => format!("MVTS {number:04X} all ones"),
            TBS if after.tlb_index >> 31 == 1 => "TBS without a match".to_string(),
            TBS => "TBS with a match".to_string(),
            TBWR => format!("TBWR at {}", cpu.replacement),
            TBRI | TBWI => {
                self.tally.add("TLB index", format!("{name} {index}"));
                format!("{name} with bit 31 {bit_31}")
            }
            _ => return,
        };
        self.tally.add("system", item);
    }
}
