//! The long set of vectors: a reader of the file, and faults that it finds.

use eco32_reference::vectors::required::required;
use eco32_reference::vectors::tally::{Required, Tally};
use eco32_reference::vectors::Set;
use eco32_reference::{read_record, write_record, Memory, Processor};
use std::process::Command;
use std::sync::OnceLock;

fn set() -> &'static Set {
    static SET: OnceLock<Set> = OnceLock::new();
    SET.get_or_init(Set::build)
}

/// A record with memory.
#[derive(Clone, PartialEq)]
struct Machine {
    record: Vec<u8>,
    ram: Vec<u8>,
    rom: Vec<u8>,
    belt: Vec<u8>,
}

impl Machine {
    fn new() -> Machine {
        let mut record = vec![0; 424];
        write_record(&Processor::reset(), &mut record);
        Machine {
            record,
            ram: vec![0; 8192],
            rom: vec![0; 4096],
            belt: vec![0; 1024],
        }
    }

    /// One step; its slot times 256, and its EID.
    fn step(&mut self, lines: u16) -> Result<u32, String> {
        let (refusal, mut processor) = read_record(&self.record);
        if refusal != 0 {
            return Err(format!("refusal {refusal}"));
        }
        let mut memory = Memory {
            ram: &mut self.ram,
            rom: &self.rom,
            belt: &mut self.belt,
        };
        let stepped = processor.step(&mut memory, lines);
        write_record(&processor, &mut self.record);
        Ok(256 * stepped.slot + stepped.eid)
    }
}

/// What a reader has seen of a file.
#[derive(Debug, Default, PartialEq)]
struct Counts {
    cases: u64,
    steps: u64,
}

struct Reader {
    expected: Machine,
    model: Machine,
    counts: Counts,
    ended: bool,
}

impl Reader {
    /// Reads a whole file with the simulator as the model.
    fn read(bytes: &[u8]) -> Result<Counts, String> {
        let mut reader = Reader {
            expected: Machine::new(),
            model: Machine::new(),
            counts: Counts::default(),
            ended: false,
        };
        if !bytes.len().is_multiple_of(8) {
            return Err("length".to_string());
        }
        for (n, command) in bytes.chunks(8).enumerate() {
            reader
                .command(command)
                .map_err(|what| format!("command {n}: {what}"))?;
        }
        if !reader.ended {
            return Err("no end".to_string());
        }
        Ok(reader.counts)
    }

    fn command(&mut self, command: &[u8]) -> Result<(), String> {
        let a = u32::from_be_bytes([0, command[1], command[2], command[3]]);
        let b = u32::from_be_bytes(command[4..].try_into().unwrap());
        if self.ended {
            return Err("behind the end".to_string());
        }
        let place = a as usize;
        match command[0] {
            0 => {
                self.counts.cases += 1;
                self.expected = Machine::new();
            }
            1 => put(&mut self.expected.record, place, b)?,
            2 => *self.expected.record.get_mut(place).ok_or("offset")? = b as u8,
            3 => put(&mut self.expected.ram, place, b)?,
            4 => put(&mut self.expected.rom, place, b)?,
            5 => put(&mut self.expected.belt, place, b)?,
            6 => self.model = self.expected.clone(),
            7 => self.step(a, b)?,
            8 => {
                self.ended = true;
                if u64::from(b) != self.counts.cases {
                    return Err("cases".to_string());
                }
            }
            kind => return Err(format!("kind {kind}")),
        }
        Ok(())
    }

    fn step(&mut self, lines: u32, told: u32) -> Result<(), String> {
        self.counts.steps += 1;
        let lines = u16::try_from(lines).map_err(|_| "lines")?;
        if self.model.step(lines)? != told {
            return Err("EID or slot".to_string());
        }
        if self.model != self.expected {
            return Err("state".to_string());
        }
        Ok(())
    }
}

fn put(memory: &mut [u8], at: usize, word: u32) -> Result<(), String> {
    let place = memory.get_mut(at..at + 4).ok_or("offset")?;
    place.copy_from_slice(&word.to_be_bytes());
    Ok(())
}

#[test]
fn the_simulator_agrees_with_its_set() {
    let counts = Reader::read(&set().bytes).unwrap();
    assert_eq!(counts.cases, set().tally.count("set", "cases"));
    assert_eq!(counts.steps, set().tally.count("set", "steps"));
}

#[test]
fn the_set_is_the_same_each_time() {
    assert!(Set::build().bytes == set().bytes);
}

#[test]
fn the_set_has_no_hole() {
    assert_eq!(set().tally.holes(&required()), Vec::<String>::new());
    assert!(set().bytes.len() < 2_000_000);
}

#[test]
fn a_hole_is_named() {
    let mut tally = Tally::default();
    tally.add("exception", "EID 16");
    let wanted = |item: &str, least| Required {
        heading: "exception",
        item: item.to_string(),
        least,
    };
    let holes = tally.holes(&[
        wanted("EID 16", 1),
        wanted("EID 16", 2),
        wanted("EID 17", 1),
    ]);
    assert_eq!(
        holes,
        ["exception: EID 16 1 of 2", "exception: EID 17 0 of 1"]
    );
}

/// The numbers of commands that tell what a step must give: the patches
/// behind a start, and the steps.
fn telling(bytes: &[u8]) -> Vec<usize> {
    let mut started = false;
    let mut found = Vec::new();
    for (n, command) in bytes.chunks(8).enumerate() {
        match command[0] {
            0 => started = false,
            6 => started = true,
            1..=5 | 7 if started => found.push(n),
            _ => {}
        }
    }
    found
}

/// The case with a command, alone, and the command's place in it.
fn case_around(bytes: &[u8], n: usize) -> (Vec<u8>, usize) {
    let is_edge = |&n: &usize| matches!(bytes[8 * n], 0 | 8);
    let first = (0..=n).rev().find(is_edge).unwrap();
    let last = (n + 1..).find(is_edge).unwrap();
    (bytes[8 * first..8 * last].to_vec(), n - first)
}

#[test]
fn a_changed_byte_is_found() {
    // Commands from all over the file, and some of each kind.
    let bytes = &set().bytes;
    let telling = telling(bytes);
    let mut chosen: Vec<usize> = telling.iter().step_by(97).copied().collect();
    for kind in [1, 2, 3, 5, 7] {
        let of_kind = telling.iter().filter(|&&n| bytes[8 * n] == kind);
        chosen.extend(of_kind.take(20));
    }
    for n in chosen {
        let (case, n) = case_around(bytes, n);
        assert_eq!(Reader::read(&case).unwrap_err(), "no end");
        // The upper bytes of a byte patch say nothing.
        let first = if case[8 * n] == 2 { 7 } else { 4 };
        for place in first..8 {
            let mut changed = case.clone();
            changed[8 * n + place] ^= 0x10;
            let error = Reader::read(&changed).unwrap_err();
            assert_ne!(error, "no end", "command {n} byte {place}");
        }
    }
}

#[test]
fn a_cut_file_is_found() {
    let bytes = &set().bytes;
    let cut = |length: usize| Reader::read(&bytes[..length]).unwrap_err();
    assert_eq!(cut(0), "no end");
    assert_eq!(cut(bytes.len() - 8), "no end");
    assert_eq!(cut(bytes.len() - 1), "length");
}

#[test]
fn the_program_checks_a_file() {
    let path = format!("{}/vectors.bin", env!("CARGO_TARGET_TMPDIR"));
    let run = |arguments: &[&str]| {
        Command::new(env!("CARGO_BIN_EXE_vectors"))
            .args(arguments)
            .output()
            .unwrap()
    };
    assert!(run(&[&path]).status.success());
    assert!(std::fs::read(&path).unwrap() == set().bytes);
    assert!(run(&["--check", &path]).status.success());
    let mut changed = set().bytes.clone();
    changed[1000] ^= 1;
    std::fs::write(&path, changed).unwrap();
    let failed = run(&["--check", &path]);
    assert_eq!(failed.status.code(), Some(1));
    let message = String::from_utf8(failed.stderr).unwrap();
    assert!(message.contains("from byte 1000 on"), "{message}");
    assert_eq!(run(&[]).status.code(), Some(1));
}
