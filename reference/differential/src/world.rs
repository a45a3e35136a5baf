//! The bytes that a host lends, and the calls on them.

use crate::charges;
use crate::ffi::{self, Lending};
use eco32_reference::host::{self, View};
use eco32_reference::vectors::scene::Scene;
use eco32_reference::{write_record, Answer, Charged, RECORD_LENGTH};

/// Bytes on both sides of a lent slice that no call may touch.
const GUARD: usize = 64;
const GUARD_BYTE: u8 = 0xA5;

/// A lent slice between its guards.
#[derive(Clone, PartialEq)]
pub struct Lent(Vec<u8>);

impl Lent {
    pub fn zeros(length: usize) -> Lent {
        // The large middle stays untouched zero memory.
        let mut all = vec![0; length + 2 * GUARD];
        all[..GUARD].fill(GUARD_BYTE);
        all[GUARD + length..].fill(GUARD_BYTE);
        Lent(all)
    }

    pub fn of(bytes: &[u8]) -> Lent {
        let mut lent = Lent::zeros(bytes.len());
        lent.bytes_mut().copy_from_slice(bytes);
        lent
    }

    pub fn bytes(&self) -> &[u8] {
        &self.0[GUARD..self.0.len() - GUARD]
    }

    pub fn bytes_mut(&mut self) -> &mut [u8] {
        let end = self.0.len() - GUARD;
        &mut self.0[GUARD..end]
    }

    /// Changes the length; new bytes are `fill`.
    pub fn resize(&mut self, length: usize, fill: u8) {
        let mut bytes = self.bytes().to_vec();
        bytes.resize(length, fill);
        *self = Lent::of(&bytes);
    }

    fn guards_whole(&self) -> bool {
        let end = self.0.len() - GUARD;
        let sides = self.0[..GUARD].iter().chain(&self.0[end..]);
        sides.into_iter().all(|&byte| byte == GUARD_BYTE)
    }

    /// First offset at which two slices of one length differ.
    fn differs(&self, other: &Lent) -> Option<usize> {
        if self.0 == other.0 {
            return None;
        }
        let mut pairs = self.bytes().iter().zip(other.bytes());
        pairs.position(|(a, b)| a != b)
    }
}

/// Everything that calls can be handed.
#[derive(Clone)]
pub struct World {
    pub record: Lent,
    pub machine: Lent,
    pub ram: Lent,
    pub rom: Lent,
    pub belt: Lent,
    pub charges: Lent,
}

impl World {
    /// The machine as a record, and its memory; the record buffer holds other
    /// bytes, and no two entries of the list of charges are equal.
    pub fn of(scene: &Scene) -> World {
        let mut machine = vec![0; RECORD_LENGTH];
        let refusal = write_record(&scene.cpu, &mut machine);
        assert_eq!(refusal, 0, "scenes are fit");
        World {
            record: Lent::of(&[0x77; RECORD_LENGTH]),
            machine: Lent::of(&machine),
            ram: Lent::of(&scene.ram),
            rom: Lent::of(&scene.rom),
            belt: Lent::of(&scene.belt),
            charges: Lent::of(&charges::distinct()),
        }
    }

    fn parts(&self) -> [(&'static str, &Lent); 6] {
        [
            ("record", &self.record),
            ("machine", &self.machine),
            ("RAM", &self.ram),
            ("ROM", &self.rom),
            ("belt", &self.belt),
            ("charges", &self.charges),
        ]
    }

    /// Says where two worlds differ, if they do.
    pub fn difference(&self, other: &World, names: [&str; 2]) -> Option<String> {
        for ((part, a), (_, b)) in self.parts().into_iter().zip(other.parts()) {
            if let Some(at) = a.differs(b) {
                let end = (at + 4).min(a.bytes().len());
                let (ours, theirs) = (&a.bytes()[at..end], &b.bytes()[at..end]);
                let [first, second] = names;
                return Some(format!(
                    "{part} from byte {at} on: {first} {ours:02X?}, {second} {theirs:02X?}"
                ));
            }
        }
        None
    }

    /// Names a part with a damaged guard, if there is one.
    pub fn overrun(&self) -> Option<&'static str> {
        let mut parts = self.parts().into_iter();
        parts
            .find(|(_, lent)| !lent.guards_whole())
            .map(|(part, _)| part)
    }
}

/// One call; what it takes beside the world.
#[derive(Clone, Copy, Debug, PartialEq, Eq)]
pub enum Call {
    Reset,
    ReadRecord,
    WriteRecord,
    Run(Run),
    PageView(u64),
}

#[derive(Clone, Copy, Debug, PartialEq, Eq)]
pub struct Run {
    pub to_exception: bool,
    pub charged: bool,
    pub wanted: u64,
    pub lines: u16,
}

/// What a call answers.
#[derive(Clone, Copy, Debug, PartialEq, Eq)]
pub enum Outcome {
    Number(u32),
    Answer(Answer),
    Charged(Charged),
    View(View),
}

impl Outcome {
    pub fn refusal(self) -> u32 {
        match self {
            Outcome::Number(refusal) => refusal,
            Outcome::Answer(answer) => answer.refusal,
            Outcome::Charged(charged) => charged.answer.refusal,
            Outcome::View(view) => view.refusal,
        }
    }

    /// The answer of a run, charged or not.
    pub fn answer(self) -> Option<Answer> {
        match self {
            Outcome::Answer(answer) => Some(answer),
            Outcome::Charged(charged) => Some(charged.answer),
            Outcome::Number(_) | Outcome::View(_) => None,
        }
    }

    /// The charge of a run, 0 of one that is not charged.
    pub fn charge(self) -> u64 {
        match self {
            Outcome::Charged(charged) => charged.charge,
            Outcome::Number(_) | Outcome::Answer(_) | Outcome::View(_) => 0,
        }
    }
}

impl Run {
    pub fn name(&self) -> &'static str {
        match (self.to_exception, self.charged) {
            (false, false) => "run",
            (true, false) => "run_to_exception",
            (false, true) => "run_charged",
            (true, true) => "run_to_exception_charged",
        }
    }

    fn library(self, world: &mut World) -> Outcome {
        let lent = Lending {
            machine: world.machine.bytes_mut(),
            ram: world.ram.bytes_mut(),
            rom: world.rom.bytes(),
            belt: world.belt.bytes_mut(),
            charges: world.charges.bytes(),
        };
        let (wanted, lines) = (self.wanted, self.lines);
        if self.charged {
            let call = if self.to_exception {
                ffi::run_to_exception_charged
            } else {
                ffi::run_charged
            };
            return Outcome::Charged(call(lent, wanted, lines));
        }
        let call = if self.to_exception {
            ffi::run_to_exception
        } else {
            ffi::run
        };
        let (machine, ram) = (lent.machine, lent.ram);
        Outcome::Answer(call(machine, ram, lent.rom, lent.belt, wanted, lines))
    }

    fn simulator(self, world: &mut World) -> Outcome {
        let (machine, ram) = (world.machine.bytes_mut(), world.ram.bytes_mut());
        let (rom, belt) = (world.rom.bytes(), world.belt.bytes_mut());
        let (wanted, lines) = (self.wanted, self.lines);
        if self.charged {
            let call = if self.to_exception {
                host::run_to_exception_charged
            } else {
                host::run_charged
            };
            let charges = world.charges.bytes();
            return Outcome::Charged(call(machine, ram, rom, belt, charges, wanted, lines));
        }
        let call = if self.to_exception {
            host::run_to_exception
        } else {
            host::run
        };
        Outcome::Answer(call(machine, ram, rom, belt, wanted, lines))
    }
}

impl Call {
    pub fn name(&self) -> &'static str {
        match self {
            Call::Reset => "reset",
            Call::ReadRecord => "read_record",
            Call::WriteRecord => "write_record",
            Call::Run(run) => run.name(),
            Call::PageView(_) => "page_view",
        }
    }

    /// Lengths of the record that it only reads and of the one that it writes.
    pub fn lengths(&self, world: &World) -> (Option<usize>, Option<usize>) {
        let record = Some(world.record.bytes().len());
        let machine = Some(world.machine.bytes().len());
        match self {
            Call::Reset | Call::Run(_) => (None, machine),
            Call::ReadRecord => (record, machine),
            Call::WriteRecord => (machine, record),
            Call::PageView(_) => (machine, None),
        }
    }

    /// The call by the library.
    pub fn library(&self, world: &mut World) -> Outcome {
        let (record, machine) = (&mut world.record, &mut world.machine);
        match *self {
            Call::Reset => Outcome::Number(ffi::reset(machine.bytes_mut())),
            Call::ReadRecord => {
                Outcome::Number(ffi::read_record(record.bytes(), machine.bytes_mut()))
            }
            Call::WriteRecord => {
                Outcome::Number(ffi::write_record(machine.bytes(), record.bytes_mut()))
            }
            Call::Run(run) => run.library(world),
            Call::PageView(page) => {
                Outcome::View(ffi::page_view(world.ram.bytes(), machine.bytes(), page))
            }
        }
    }

    /// The call by the simulator.
    pub fn simulator(&self, world: &mut World) -> Outcome {
        let (record, machine) = (&mut world.record, &mut world.machine);
        match *self {
            Call::Reset => Outcome::Number(host::reset(machine.bytes_mut())),
            Call::ReadRecord => {
                Outcome::Number(host::read_record(record.bytes(), machine.bytes_mut()))
            }
            Call::WriteRecord => {
                Outcome::Number(host::write_record(machine.bytes(), record.bytes_mut()))
            }
            Call::Run(run) => run.simulator(world),
            Call::PageView(page) => {
                Outcome::View(host::page_view(world.ram.bytes(), machine.bytes(), page))
            }
        }
    }
}
