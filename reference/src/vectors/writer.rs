//! Writer of the file of vectors.
//!
//! The file is a sequence of commands of 8 bytes, big-endian: a kind byte, a
//! number a of 24 bits, a number b of 32 bits. A reader holds an expected
//! machine and the model's; changes of the expected machine stand before the
//! step that has to make them.

use super::observe::Observer;
use super::scene::Scene;
use super::Sink;
use crate::processor::Processor;
use crate::record::{
    write_record, CONTROL_AT, COUNTER_AT, DIVISOR_AT, RECORD_LENGTH, REPLACEMENT_AT,
};
use crate::step::Stepped;

/// A case begins: the reset machine and memory of zeros are expected.
pub const CLEAR: u8 = 0;
/// Word b, or byte b, at offset a of the expected record.
pub const RECORD_WORD: u8 = 1;
pub const RECORD_BYTE: u8 = 2;
/// Word b at offset a of the expected memory.
pub const RAM_WORD: u8 = 3;
pub const ROM_WORD: u8 = 4;
pub const BELT_WORD: u8 = 5;
/// The model takes the expected machine and memory.
pub const START: u8 = 6;
/// The model makes a step with lines a, which has to tell b: its slot (33:
/// none) times 256, and the EID that it accepts (32: none).
pub const STEP: u8 = 7;
/// End of the file after b cases.
pub const END: u8 = 8;

/// Offsets of the parts of the record that are no words.
const RECORD_BYTES: [usize; 2] = [REPLACEMENT_AT, CONTROL_AT];

/// Offsets of the words of the record (document 01, "What the host lends";
/// document 02, job 1).
fn record_words() -> impl Iterator<Item = usize> {
    let registers = (0..32).map(|n| 1 + 4 * n);
    let specials = (0..5).map(|n| 135 + 4 * n);
    let tlb = (0..64).map(|n| 156 + 4 * n);
    let timer = [DIVISOR_AT, COUNTER_AT];
    let processor = registers.chain([130]).chain(specials).chain(tlb);
    processor.chain(timer)
}

fn word_at(bytes: &[u8], at: usize) -> u32 {
    bytes[at..at + 4]
        .iter()
        .fold(0, |value, &byte| value << 8 | u32::from(byte))
}

fn record_of(cpu: &Processor) -> Vec<u8> {
    let mut record = vec![0; RECORD_LENGTH];
    let refusal = write_record(cpu, &mut record);
    assert_eq!(refusal, 0, "every machine of the set is fit");
    record
}

#[derive(Default)]
pub struct Writer {
    bytes: Vec<u8>,
    cases: u32,
    pub observer: Observer,
}

impl Writer {
    fn command(&mut self, kind: u8, a: usize, b: u32) {
        let a = (a as u32).to_be_bytes();
        assert_eq!(a[0], 0, "a has 24 bits");
        self.bytes.extend([kind, a[1], a[2], a[3]]);
        self.bytes.extend(b.to_be_bytes());
    }

    /// Patches one region where two scenes differ.
    fn patch_region(&mut self, kind: u8, from: &[u8], to: &[u8]) {
        if from == to {
            return;
        }
        for at in (0..to.len()).step_by(4) {
            if from[at..at + 4] != to[at..at + 4] {
                self.command(kind, at, word_at(to, at));
            }
        }
    }

    /// Patches the expected machine where two scenes differ.
    fn patch(&mut self, from: &Scene, to: &Scene) {
        let (old, new) = (record_of(&from.cpu), record_of(&to.cpu));
        for at in record_words() {
            if old[at..at + 4] != new[at..at + 4] {
                self.command(RECORD_WORD, at, word_at(&new, at));
            }
        }
        for at in RECORD_BYTES {
            if old[at] != new[at] {
                self.command(RECORD_BYTE, at, u32::from(new[at]));
            }
        }
        self.patch_region(RAM_WORD, &from.ram, &to.ram);
        self.patch_region(ROM_WORD, &from.rom, &to.rom);
        self.patch_region(BELT_WORD, &from.belt, &to.belt);
    }

    /// Ends the file.
    pub fn finish(mut self) -> (Vec<u8>, Observer) {
        self.command(END, 0, self.cases);
        (self.bytes, self.observer)
    }
}

impl Sink for Writer {
    /// Writes a case with what each step has to give.
    fn case(&mut self, start: &Scene, lines: &[u16]) {
        self.cases += 1;
        self.command(CLEAR, 0, 0);
        self.patch(&Scene::new(), start);
        self.command(START, 0, 0);
        self.observer.begin(lines.len());
        let mut scene = start.clone();
        for &lines in lines {
            let before = scene.clone();
            let Stepped { eid, slot, .. } = self.observer.step(&mut scene, lines);
            self.patch(&before, &scene);
            self.command(STEP, usize::from(lines), 256 * slot + eid);
        }
    }
}
