//! A processor with small memories, for the tests.
#![allow(dead_code)]

use eco32_reference::{Memory, Processor, Stepped, Timer, TlbEntry};

/// PSW with the current mode User Mode and all else 0.
pub const USER: u32 = 0x0400_0000;
/// The timer's control register in the direct-mapped space.
pub const TIMER: u32 = 0xF000_0000;

pub const fn timer(divisor: u32, counter: u32, control: u8) -> Timer {
    Timer {
        divisor,
        counter,
        control,
    }
}

/// The replacement index after so many steps: up by 1 with each, 31 to 4
/// (document 02, job 4).
pub fn moved(index: u8, steps: u32) -> u8 {
    4 + ((u32::from(index) - 4 + steps) % 28) as u8
}

#[derive(Clone)]
pub struct Rig {
    pub cpu: Processor,
    pub ram: Vec<u8>,
    pub rom: Vec<u8>,
    pub belt: Vec<u8>,
}

impl Rig {
    /// The reset machine with 8,192 bytes of RAM, 4,096 of ROM, 1,024 of belt
    /// registers, all 0.
    pub fn new() -> Rig {
        Rig {
            cpu: Processor::reset(),
            ram: vec![0; 8192],
            rom: vec![0; 4096],
            belt: vec![0; 1024],
        }
    }

    /// The same with words from the first address of ROM.
    pub fn with_rom(words: &[u32]) -> Rig {
        let mut rig = Rig::new();
        for (n, &word) in words.iter().enumerate() {
            put(&mut rig.rom, 4 * n, word);
        }
        rig
    }

    /// One instruction at virtual 00001000 in User Mode: page 00001 maps
    /// frame 00001 with valid and write set, by entry 31.
    pub fn in_user_mode(word: u32) -> Rig {
        let mut rig = Rig::new();
        rig.map(31, 0x0000_1000, 0x0000_1003);
        put(&mut rig.ram, 0x1000, word);
        rig.cpu.pc = 0x0000_1000;
        rig.cpu.psw = USER;
        rig
    }

    pub fn map(&mut self, index: usize, high: u32, low: u32) {
        self.cpu.tlb[index] = TlbEntry { high, low };
    }

    pub fn set(mut self, register: usize, value: u32) -> Rig {
        self.cpu.registers[register] = value;
        self
    }

    pub fn memory(&mut self) -> Memory<'_> {
        Memory {
            ram: &mut self.ram,
            rom: &self.rom,
            belt: &mut self.belt,
        }
    }

    pub fn step(&mut self) -> u32 {
        self.step_with(0)
    }

    pub fn step_with(&mut self, lines: u16) -> u32 {
        self.stepped(lines).eid
    }

    /// One step, with all that it tells.
    pub fn stepped(&mut self, lines: u16) -> Stepped {
        let mut memory = Memory {
            ram: &mut self.ram,
            rom: &self.rom,
            belt: &mut self.belt,
        };
        self.cpu.step(&mut memory, lines)
    }

    /// Makes one step and checks that it completes, that memory stays, and
    /// that the state changes by `change`, the PC by 4, and the replacement
    /// index by its move.
    #[track_caller]
    pub fn completes(&self, what: &str, change: impl FnOnce(&mut Processor)) {
        let mut after = self.clone();
        let mut expected = self.cpu.clone();
        expected.pc = expected.pc.wrapping_add(4);
        expected.replacement = moved(expected.replacement, 1);
        change(&mut expected);
        assert_eq!(after.step(), 32, "{what}: EID");
        assert_eq!(after.cpu, expected, "{what}: state");
        self.memory_equals(&after, what);
    }

    /// Makes one step and checks that it faults with `eid`, that memory
    /// stays, and that the state is exactly that of exception entry to `pc`
    /// with `psw`, changed by `change` in Bad Address and Entry High, and by
    /// the move of the replacement index. It has no slot and no opcode.
    #[track_caller]
    pub fn faults(
        &self,
        what: &str,
        eid: u32,
        psw: u32,
        pc: u32,
        change: impl FnOnce(&mut Processor),
    ) {
        let mut after = self.clone();
        let mut expected = self.cpu.clone();
        expected.registers[30] = expected.pc;
        expected.psw = psw;
        expected.pc = pc;
        expected.replacement = moved(expected.replacement, 1);
        change(&mut expected);
        let expected_step = Stepped {
            eid,
            slot: 33,
            opcode: None,
        };
        assert_eq!(after.stepped(0), expected_step, "{what}: EID");
        assert_eq!(after.cpu, expected, "{what}: state");
        self.memory_equals(&after, what);
    }

    #[track_caller]
    pub fn memory_equals(&self, other: &Rig, what: &str) {
        assert!(self.ram == other.ram, "{what}: RAM");
        assert!(self.rom == other.rom, "{what}: ROM");
        assert!(self.belt == other.belt, "{what}: belt");
    }
}

pub fn put(memory: &mut [u8], at: usize, word: u32) {
    memory[at..at + 4].copy_from_slice(&word.to_be_bytes());
}

pub fn get(memory: &[u8], at: usize) -> u32 {
    u32::from_be_bytes(memory[at..at + 4].try_into().unwrap())
}

/// Generator of reproducible test data.
pub struct Numbers(pub u64);

impl Numbers {
    pub fn next(&mut self) -> u32 {
        self.0 = self
            .0
            .wrapping_mul(6_364_136_223_846_793_005)
            .wrapping_add(1_442_695_040_888_963_407);
        (self.0 >> 32) as u32
    }

    /// A machine that passes the test of refusal 6, with arbitrary contents.
    pub fn fit_machine(&mut self) -> Processor {
        let mut machine = Processor::reset();
        for register in machine.registers.iter_mut().skip(1) {
            *register = self.next();
        }
        machine.pc = self.next();
        machine.psw = self.next() & 0x0FFF_FFFF;
        machine.tlb_index = self.next() & 0x8000_001F;
        machine.entry_high = self.next() & 0xFFFF_F000;
        machine.entry_low = self.next() & 0xFFFF_F003;
        machine.bad_address = self.next();
        for entry in machine.tlb.iter_mut() {
            entry.high = self.next() & 0xFFFF_F000;
            entry.low = self.next() & 0xFFFF_F003;
        }
        machine.replacement = (4 + self.next() % 28) as u8;
        machine.timer = timer(self.next(), self.next(), self.next() as u8 & 3);
        machine
    }
}
