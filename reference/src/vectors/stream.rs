//! Random instruction streams. The word at the PC is chosen when it is first
//! fetched from memory, unless the stream has read or written it before; it
//! then stands in the machine from the start.

use super::choose;
use super::machines;
use super::mnemonics::{group, Group};
use super::numbers::Numbers;
use super::scene::Scene;
use crate::memory::Width;
use crate::mmu::Access;
use crate::processor::PSW_IC;
use std::collections::HashSet;

/// Interrupt lines: one channel, or several.
pub fn random_lines(numbers: &mut Numbers) -> u16 {
    if numbers.percent(60) {
        1 << numbers.below(16)
    } else {
        numbers.word() as u16 & numbers.word() as u16
    }
}

pub struct Stream {
    pub start: Scene,
    pub lines: Vec<u16>,
    now: Scene,
    /// Physical addresses of words that may no longer be chosen.
    settled: HashSet<u32>,
}

impl Stream {
    pub fn new(start: Scene) -> Stream {
        Stream {
            now: start.clone(),
            start,
            lines: Vec::new(),
            settled: HashSet::new(),
        }
    }

    /// A stream of so many steps from a random machine.
    pub fn random(numbers: &mut Numbers, steps: u32) -> Stream {
        let mut stream = Stream::new(machines::machine(Scene::new(), numbers));
        let busy = numbers.pick(&[0, 5, 15, 40]);
        for _ in 0..steps {
            let lines = if numbers.percent(busy) {
                random_lines(numbers)
            } else {
                0
            };
            stream.step(numbers, lines);
        }
        stream
    }

    /// Makes one step; answers its EID, or 32.
    pub fn step(&mut self, numbers: &mut Numbers, lines: u16) -> u32 {
        let psw = self.now.cpu.psw;
        let ready = psw & u32::from(lines | self.now.cpu.timer.lines());
        let interrupted = psw & PSW_IC != 0 && ready != 0;
        if !interrupted {
            self.choose(numbers);
        }
        self.lines.push(lines);
        self.now.step(lines).eid
    }

    fn choose(&mut self, numbers: &mut Numbers) {
        let Ok((physical, mut word)) = self.now.fetched() else {
            return;
        };
        let in_memory = self.now.locate(physical).is_some();
        if in_memory && self.settled.insert(physical) && word == 0 {
            word = choose::instruction(&self.now, numbers);
            self.start.put(physical, word);
            self.now.put(physical, word);
        }
        if matches!(group(word >> 26), Group::Load | Group::Store) {
            let base = self.now.cpu.register(word >> 21 & 31);
            let address = base.wrapping_add(word as u16 as i16 as u32);
            let reached = self.now.physical(address, Width::Byte, Access::Load);
            if let Ok(physical) = reached {
                self.settled.insert(physical & !3);
            }
        }
    }
}
