//! Builds a routine word by word: labels, branches to them, data, and a note
//! for each word. The encoders are those of `asm`.

use crate::asm::{ldhi, ori};
use std::collections::BTreeMap;

/// Encoder of a branch: two registers and an offset in words.
pub type Branch = fn(u32, u32, i32) -> u32;
/// Encoder of J or JAL: an offset in words.
pub type Jump = fn(i32) -> u32;

enum Content {
    Instruction(u32),
    Data(u32),
    Branch(Branch, u32, u32, &'static str),
    Jump(Jump, &'static str),
    /// LDHI and ORI that bring a label's address into a register.
    High(u32, &'static str),
    Low(u32, &'static str),
}

/// One word of a finished routine.
#[derive(Clone, Debug, PartialEq, Eq)]
pub struct Line {
    pub address: u32,
    pub word: u32,
    pub is_data: bool,
    pub note: String,
}

/// A finished routine, with the headings of its parts.
#[derive(Clone, Debug, PartialEq, Eq)]
pub struct Routine {
    pub lines: Vec<Line>,
    pub labels: BTreeMap<&'static str, u32>,
    pub headings: BTreeMap<u32, String>,
}

impl Routine {
    /// The words as bytes, filled up with zeros.
    pub fn bytes(&self, length: usize) -> Result<Vec<u8>, String> {
        let words = self.lines.iter().map(|line| line.word);
        let mut bytes: Vec<u8> = words.flat_map(u32::to_be_bytes).collect();
        if bytes.len() > length {
            return Err(format!("{} bytes do not fit in {length}", bytes.len()));
        }
        bytes.resize(length, 0);
        Ok(bytes)
    }
}

/// A routine in the making.
pub struct Builder {
    base: u32,
    words: Vec<(Content, String)>,
    labels: BTreeMap<&'static str, u32>,
    headings: BTreeMap<u32, String>,
    doubled: Vec<&'static str>,
}

impl Builder {
    /// A routine whose first word has the virtual address `base`.
    pub fn new(base: u32) -> Builder {
        Builder {
            base,
            words: Vec::new(),
            labels: BTreeMap::new(),
            headings: BTreeMap::new(),
            doubled: Vec::new(),
        }
    }

    /// Address of the next word.
    pub fn here(&self) -> u32 {
        self.base + 4 * self.words.len() as u32
    }

    fn push(&mut self, content: Content, note: &str) {
        self.words.push((content, note.to_string()));
    }

    /// Begins a part of the listing.
    pub fn heading(&mut self, text: &str) {
        self.headings.insert(self.here(), text.to_string());
    }

    pub fn label(&mut self, name: &'static str) {
        if self.labels.insert(name, self.here()).is_some() {
            self.doubled.push(name);
        }
    }

    /// An encoded instruction.
    pub fn op(&mut self, word: u32, note: &str) {
        self.push(Content::Instruction(word), note);
    }

    pub fn data(&mut self, word: u32, note: &str) {
        self.push(Content::Data(word), note);
    }

    pub fn branch(&mut self, encode: Branch, x: u32, y: u32, target: &'static str, note: &str) {
        self.push(Content::Branch(encode, x, y, target), note);
    }

    pub fn jump(&mut self, encode: Jump, target: &'static str, note: &str) {
        self.push(Content::Jump(encode, target), note);
    }

    /// Brings a number into a register, by one instruction or two.
    pub fn constant(&mut self, register: u32, value: u32, note: &str) {
        let (high, low) = (value >> 16, value & 0xFFFF);
        if high == 0 {
            return self.op(ori(register, 0, low as i32), note);
        }
        self.op(ldhi(register, high as i32), note);
        if low != 0 {
            self.op(ori(register, register, low as i32), "");
        }
    }

    /// Brings the address of a label into a register.
    pub fn address(&mut self, register: u32, target: &'static str, note: &str) {
        self.push(Content::High(register, target), note);
        self.push(Content::Low(register, target), "");
    }

    fn target(&self, name: &str) -> Result<u32, String> {
        let found = self.labels.get(name).copied();
        found.ok_or_else(|| format!("no label {name}"))
    }

    /// Words from behind `address` to a label, if `bits` bits can hold them.
    fn offset(&self, address: u32, name: &str, bits: u32) -> Result<i32, String> {
        let behind = address.wrapping_add(4);
        let words = self.target(name)?.wrapping_sub(behind) as i32 / 4;
        let most = 1 << (bits - 1);
        if (-most..most).contains(&words) {
            Ok(words)
        } else {
            Err(format!("label {name} is too far from {address:08X}"))
        }
    }

    fn encode(&self, content: &Content, address: u32) -> Result<u32, String> {
        Ok(match *content {
            Content::Instruction(word) | Content::Data(word) => word,
            Content::Branch(encode, x, y, name) => encode(x, y, self.offset(address, name, 16)?),
            Content::Jump(encode, name) => encode(self.offset(address, name, 26)?),
            Content::High(register, name) => ldhi(register, (self.target(name)? >> 16) as i32),
            Content::Low(register, name) => {
                ori(register, register, (self.target(name)? & 0xFFFF) as i32)
            }
        })
    }

    /// Puts the labels' addresses in place.
    pub fn finish(self) -> Result<Routine, String> {
        if let Some(name) = self.doubled.first() {
            return Err(format!("label {name} stands twice"));
        }
        let mut lines = Vec::new();
        for (n, (content, note)) in self.words.iter().enumerate() {
            let address = self.base + 4 * n as u32;
            lines.push(Line {
                address,
                word: self.encode(content, address)?,
                is_data: matches!(content, Content::Data(_)),
                note: note.clone(),
            });
        }
        Ok(Routine {
            lines,
            labels: self.labels,
            headings: self.headings,
        })
    }
}
