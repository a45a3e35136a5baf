//! A processor with the memory that the set of vectors lends it.

use crate::exception::Fault;
use crate::memory::{Memory, Width, BELT_BASE, ROM_BASE};
use crate::mmu::{Access, DIRECT_BASE};
use crate::processor::{Processor, TlbEntry, PSW_UC};
use crate::step::Stepped;
use crate::timer::{self, Timer};

pub const RAM_LENGTH: usize = 8192;
pub const ROM_LENGTH: usize = 4096;
pub const BELT_LENGTH: usize = 1024;

/// Parts of the physical address space that are lent memory.
#[derive(Clone, Copy, Debug, PartialEq, Eq)]
pub enum Region {
    Ram,
    Rom,
    Belt,
}

impl Region {
    pub const ALL: [Region; 3] = [Region::Ram, Region::Rom, Region::Belt];

    pub fn base(self) -> u32 {
        match self {
            Region::Ram => 0,
            Region::Rom => ROM_BASE,
            Region::Belt => BELT_BASE,
        }
    }

    /// First address of the region in the direct-mapped space.
    pub fn direct(self) -> u32 {
        DIRECT_BASE + self.base()
    }

    pub fn name(self) -> &'static str {
        match self {
            Region::Ram => "RAM",
            Region::Rom => "ROM",
            Region::Belt => "belt",
        }
    }
}

#[derive(Clone, PartialEq)]
pub struct Scene {
    pub cpu: Processor,
    pub ram: Vec<u8>,
    pub rom: Vec<u8>,
    pub belt: Vec<u8>,
}

impl Scene {
    /// The reset machine with memory of zeros, of the lengths of the set.
    pub fn new() -> Scene {
        Scene::sized(RAM_LENGTH, ROM_LENGTH)
    }

    /// The same with other lengths of RAM and ROM.
    pub fn sized(ram: usize, rom: usize) -> Scene {
        Scene {
            cpu: Processor::reset(),
            ram: vec![0; ram],
            rom: vec![0; rom],
            belt: vec![0; BELT_LENGTH],
        }
    }

    pub fn region(&self, region: Region) -> &[u8] {
        match region {
            Region::Ram => &self.ram,
            Region::Rom => &self.rom,
            Region::Belt => &self.belt,
        }
    }

    pub fn length(&self, region: Region) -> u32 {
        self.region(region).len() as u32
    }

    /// The region with a physical address, and the offset in it.
    pub fn locate(&self, physical: u32) -> Option<(Region, usize)> {
        Region::ALL.into_iter().find_map(|region| {
            let offset = physical.checked_sub(region.base())?;
            (offset < self.length(region)).then_some((region, offset as usize))
        })
    }

    /// Name of what answers a word at a physical address.
    pub fn answering(&self, physical: u32) -> Option<&'static str> {
        match timer::register_at(physical & !3, Width::Word) {
            Some(_) => Some("timer"),
            None => self.locate(physical).map(|(region, _)| region.name()),
        }
    }

    pub fn region_mut(&mut self, region: Region) -> &mut [u8] {
        match region {
            Region::Ram => &mut self.ram,
            Region::Rom => &mut self.rom,
            Region::Belt => &mut self.belt,
        }
    }

    /// Puts a word at an aligned physical address; nothing where no memory is.
    pub fn put(&mut self, physical: u32, word: u32) {
        if let Some((region, at)) = self.locate(physical & !3) {
            self.region_mut(region)[at..at + 4].copy_from_slice(&word.to_be_bytes());
        }
    }

    pub fn map(&mut self, index: usize, high: u32, low: u32) {
        self.cpu.tlb[index] = TlbEntry { high, low };
    }

    pub fn set(mut self, register: u32, value: u32) -> Scene {
        self.cpu.set_register(register, value);
        self
    }

    /// Sets the bits of `psw`.
    pub fn with_psw(mut self, psw: u32) -> Scene {
        self.cpu.psw |= psw;
        self
    }

    pub fn with_timer(mut self, divisor: u32, counter: u32, control: u8) -> Scene {
        self.cpu.timer = Timer {
            divisor,
            counter,
            control,
        };
        self
    }

    pub fn with_index(mut self, replacement: u8) -> Scene {
        self.cpu.replacement = replacement;
        self
    }

    pub fn memory(&mut self) -> Memory<'_> {
        Memory {
            ram: &mut self.ram,
            rom: &self.rom,
            belt: &mut self.belt,
        }
    }

    pub fn step(&mut self, lines: u16) -> Stepped {
        let mut cpu = self.cpu.clone();
        let stepped = cpu.step(&mut self.memory(), lines);
        self.cpu = cpu;
        stepped
    }

    /// Physical address of an access by the present mode.
    pub fn physical(&self, address: u32, width: Width, access: Access) -> Result<u32, Fault> {
        self.cpu
            .translate(address, width, access, self.cpu.user_mode())
            .map(|found| found.physical)
    }

    /// The word at the PC, if it can be fetched, with its physical address.
    pub fn fetched(&self) -> Result<(u32, u32), Fault> {
        let physical = self.physical(self.cpu.pc, Width::Word, Access::Load)?;
        if let Some(register) = timer::register_at(physical, Width::Word) {
            return Ok((physical, self.cpu.timer.load(register)));
        }
        let (region, at) = self.locate(physical).ok_or(Fault::BusTimeout)?;
        let word = self.region(region)[at..at + 4]
            .iter()
            .fold(0, |value, &byte| value << 8 | u32::from(byte));
        Ok((physical, word))
    }
}

impl Default for Scene {
    fn default() -> Scene {
        Scene::new()
    }
}

/// Where a scene's first instruction stands.
#[derive(Clone, Copy, Debug, PartialEq, Eq)]
pub enum Place {
    KernelRom,
    User,
    KernelRam,
    KernelMapped,
    KernelBelt,
}

impl Place {
    pub const ALL: [Place; 5] = [
        Place::KernelRom,
        Place::User,
        Place::KernelRam,
        Place::KernelMapped,
        Place::KernelBelt,
    ];

    pub fn pc(self) -> u32 {
        match self {
            Place::KernelRom => 0xE000_0040,
            Place::User => 0x0000_2040,
            Place::KernelRam => 0xC000_0040,
            Place::KernelMapped => 0x8000_3040,
            Place::KernelBelt => 0xF050_0040,
        }
    }

    /// Kernel or User Mode with these words from the first instruction on.
    /// Mapped pages stand for frame 00001, entry 12 writable, entry 7 not.
    pub fn scene(self, words: &[u32]) -> Scene {
        let mut scene = Scene::new();
        scene.cpu.pc = self.pc();
        match self {
            Place::User => {
                scene.cpu.psw = PSW_UC;
                scene.map(12, 0x0000_2000, 0x0000_1003);
            }
            Place::KernelMapped => scene.map(7, 0x8000_3000, 0x0000_1001),
            Place::KernelRom | Place::KernelRam | Place::KernelBelt => {}
        }
        for (n, &word) in words.iter().enumerate() {
            let at = self.pc() + 4 * n as u32;
            if let Ok(physical) = scene.physical(at, Width::Word, Access::Load) {
                scene.put(physical, word);
            }
        }
        scene
    }
}
