//! The long set of test vectors: what it holds and how it is written.

pub mod access;
pub mod choose;
mod compute;
mod control;
mod faults;
mod ignored;
mod interrupts;
pub mod machines;
pub mod mnemonics;
pub mod numbers;
pub mod observe;
mod operands;
mod replacement;
mod replacing;
pub mod required;
mod required_replacement;
mod required_slots;
mod required_timer;
pub mod scene;
mod serving;
mod slots;
pub mod stream;
mod system;
pub mod tally;
mod timer;
mod timing;
mod transfer;
pub mod turn;
pub mod writer;

use numbers::Numbers;
use scene::Scene;
use stream::Stream;
use tally::Tally;
use turn::Turn;
use writer::Writer;

const SEED: u64 = 0x0EC0_0032;
const STREAMS: usize = 1_380;

/// Takes the cases of the set, one by one.
pub trait Sink {
    /// A step of `start` for each number of `lines`.
    fn case(&mut self, start: &Scene, lines: &[u16]);

    /// A case without interrupt lines.
    fn quiet(&mut self, start: &Scene, steps: usize) {
        self.case(start, &vec![0; steps]);
    }
}

/// Hands over all cases, the same on every run and machine.
pub fn cases(sink: &mut dyn Sink) {
    let mut turn = Turn::default();
    let mut numbers = Numbers::new(SEED);
    compute::cases(sink, &mut turn, &mut numbers);
    control::cases(sink, &mut turn);
    transfer::cases(sink, &mut turn, &mut numbers);
    faults::cases(sink, &mut turn, &mut numbers);
    system::cases(sink, &mut turn, &mut numbers);
    interrupts::cases(sink, &mut turn, &mut numbers);
    ignored::cases(sink, &mut turn, &mut numbers);
    timer::cases(sink, &mut turn, &mut numbers);
    replacement::cases(sink);
    slots::cases(sink);
    for _ in 0..STREAMS {
        let steps = 1 + numbers.below(20);
        let stream = Stream::random(&mut numbers, steps);
        sink.case(&stream.start, &stream.lines);
    }
}

/// The set: its bytes, and what they cover.
pub struct Set {
    pub bytes: Vec<u8>,
    pub tally: Tally,
}

impl Set {
    pub fn build() -> Set {
        let mut writer = Writer::default();
        cases(&mut writer);
        let (bytes, observer) = writer.finish();
        Set {
            bytes,
            tally: observer.tally,
        }
    }
}
