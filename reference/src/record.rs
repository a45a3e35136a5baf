//! The machine record: 424 bytes in six items (document 01, "What the host
//! lends"; document 02, job 1). A record without the sixth is still read.

use crate::processor::{Processor, TlbEntry};
use crate::run::refusal;
use crate::timer::Timer;

pub const RECORD_LENGTH: usize = 424;
/// Length of a record from before the timer.
pub const OLD_RECORD_LENGTH: usize = 414;

/// Offset and value of each kind byte.
pub const KIND_BYTES: [(usize, u8); 6] = [(0, 1), (129, 2), (134, 3), (155, 4), (412, 5), (414, 6)];

const REGISTERS_AT: usize = 1;
const PC_AT: usize = 130;
const SPECIALS_AT: usize = 135;
const TLB_AT: usize = 156;
pub const REPLACEMENT_AT: usize = 413;
pub const DIVISOR_AT: usize = 415;
pub const COUNTER_AT: usize = 419;
pub const CONTROL_AT: usize = 423;

fn word_at(record: &[u8], at: usize) -> u32 {
    u32::from_be_bytes([record[at], record[at + 1], record[at + 2], record[at + 3]])
}

fn put_word(record: &mut [u8], at: usize, value: u32) {
    record[at..at + 4].copy_from_slice(&value.to_be_bytes());
}

/// Whether a record of so many bytes is read.
pub fn readable(length: usize) -> bool {
    length == RECORD_LENGTH || length == OLD_RECORD_LENGTH
}

/// Takes the items out of a record of either length, without any test of them.
fn decode(record: &[u8]) -> Processor {
    let mut machine = Processor::reset();
    for (n, register) in machine.registers.iter_mut().enumerate() {
        *register = word_at(record, REGISTERS_AT + 4 * n);
    }
    machine.pc = word_at(record, PC_AT);
    machine.psw = word_at(record, SPECIALS_AT);
    machine.tlb_index = word_at(record, SPECIALS_AT + 4);
    machine.entry_high = word_at(record, SPECIALS_AT + 8);
    machine.entry_low = word_at(record, SPECIALS_AT + 12);
    machine.bad_address = word_at(record, SPECIALS_AT + 16);
    for (n, entry) in machine.tlb.iter_mut().enumerate() {
        *entry = TlbEntry {
            high: word_at(record, TLB_AT + 8 * n),
            low: word_at(record, TLB_AT + 8 * n + 4),
        };
    }
    machine.replacement = record[REPLACEMENT_AT];
    if record.len() == RECORD_LENGTH {
        machine.timer = Timer {
            divisor: word_at(record, DIVISOR_AT),
            counter: word_at(record, COUNTER_AT),
            control: record[CONTROL_AT],
        };
    }
    machine
}

/// Reads a record: refusal 4, 5 or 6 with the reset machine, or 0 with the
/// machine read. One of the old length gives the timer at zero.
pub fn read_record(record: &[u8]) -> (u32, Processor) {
    if !readable(record.len()) {
        return (refusal::RECORD_LENGTH, Processor::reset());
    }
    let misplaced = |&(at, kind): &(usize, u8)| record.get(at).is_some_and(|&found| found != kind);
    if KIND_BYTES.iter().any(misplaced) {
        return (refusal::KIND_BYTE, Processor::reset());
    }
    let machine = decode(record);
    if !machine.fit() {
        return (refusal::UNFIT_MACHINE, Processor::reset());
    }
    (refusal::NONE, machine)
}

/// Writes a record: refusal 4 or 6 with the buffer as it was, or 0.
pub fn write_record(machine: &Processor, record: &mut [u8]) -> u32 {
    if record.len() != RECORD_LENGTH {
        return refusal::RECORD_LENGTH;
    }
    if !machine.fit() {
        return refusal::UNFIT_MACHINE;
    }
    for (at, kind) in KIND_BYTES {
        record[at] = kind;
    }
    for (n, &register) in machine.registers.iter().enumerate() {
        put_word(record, REGISTERS_AT + 4 * n, register);
    }
    put_word(record, PC_AT, machine.pc);
    for n in 0..5 {
        let value = machine.special(n as u32);
        put_word(record, SPECIALS_AT + 4 * n, value);
    }
    for (n, entry) in machine.tlb.iter().enumerate() {
        put_word(record, TLB_AT + 8 * n, entry.high);
        put_word(record, TLB_AT + 8 * n + 4, entry.low);
    }
    record[REPLACEMENT_AT] = machine.replacement;
    put_word(record, DIVISOR_AT, machine.timer.divisor);
    put_word(record, COUNTER_AT, machine.timer.counter);
    record[CONTROL_AT] = machine.timer.control;
    refusal::NONE
}
