//! The machine record (document 01, "What the host lends"; document 02, job 1).

use crate::common::{put, timer, Numbers};
use eco32_reference::{read_record, write_record, Processor, OLD_RECORD_LENGTH, RECORD_LENGTH};

fn record_of(machine: &Processor) -> Vec<u8> {
    let mut record = vec![0xEE; RECORD_LENGTH];
    assert_eq!(write_record(machine, &mut record), 0);
    record
}

/// A machine with other bytes in each item.
fn marked_machine() -> Processor {
    let mut machine = Processor::reset();
    for (n, register) in machine.registers.iter_mut().enumerate() {
        *register = n as u32 * 0x0101_0101;
    }
    machine.pc = 0xA1A2_A3A4;
    machine.psw = 0x0112_2334;
    machine.tlb_index = 0x8000_0015;
    machine.entry_high = 0xB1B2_B000;
    machine.entry_low = 0xC1C2_C002;
    machine.bad_address = 0xD1D2_D3D4;
    for (n, entry) in machine.tlb.iter_mut().enumerate() {
        entry.high = (n as u32) << 24 | 0x0011_1000;
        entry.low = (n as u32) << 24 | 0x0022_2003;
    }
    machine.replacement = 29;
    machine.timer = timer(0xE1E2_E3E4, 0xF1F2_F3F4, 2);
    machine
}

#[test]
fn layout() {
    let machine = marked_machine();
    let mut expected = vec![1];
    for n in 0..32u8 {
        expected.extend([n; 4]);
    }
    expected.push(2);
    expected.extend([0xA1, 0xA2, 0xA3, 0xA4]);
    expected.push(3);
    expected.extend([0x01, 0x12, 0x23, 0x34]);
    expected.extend([0x80, 0x00, 0x00, 0x15]);
    expected.extend([0xB1, 0xB2, 0xB0, 0x00]);
    expected.extend([0xC1, 0xC2, 0xC0, 0x02]);
    expected.extend([0xD1, 0xD2, 0xD3, 0xD4]);
    expected.push(4);
    for n in 0..32u8 {
        expected.extend([n, 0x11, 0x10, 0x00, n, 0x22, 0x20, 0x03]);
    }
    expected.extend([5, 29]);
    assert_eq!(expected.len(), OLD_RECORD_LENGTH);
    expected.push(6);
    expected.extend([0xE1, 0xE2, 0xE3, 0xE4]);
    expected.extend([0xF1, 0xF2, 0xF3, 0xF4]);
    expected.push(2);
    assert_eq!(expected.len(), RECORD_LENGTH);

    assert_eq!(record_of(&machine), expected);
    assert_eq!(read_record(&expected), (0, machine));
}

#[test]
fn round_trips() {
    let mut numbers = Numbers(1);
    for _ in 0..200 {
        let machine = numbers.fit_machine();
        let record = record_of(&machine);
        let (refusal, read) = read_record(&record);
        assert_eq!(refusal, 0);
        assert_eq!(read, machine);
        assert_eq!(record_of(&read), record);
    }
    let reset = Processor::reset();
    assert_eq!(read_record(&record_of(&reset)), (0, reset));
}

/// A record from before the timer: all else is read, the timer is zero, and
/// what is written of it has the new length.
#[test]
fn old_records() {
    let mut numbers = Numbers(9);
    for _ in 0..200 {
        let mut machine = numbers.fit_machine();
        let record = record_of(&machine);
        let (refusal, read) = read_record(&record[..OLD_RECORD_LENGTH]);
        assert_eq!(refusal, 0);
        machine.timer = timer(0, 0, 0);
        assert_eq!(read, machine);
        let written = record_of(&read);
        assert_eq!(written[..OLD_RECORD_LENGTH], record[..OLD_RECORD_LENGTH]);
        assert_eq!(written[OLD_RECORD_LENGTH..], [6, 0, 0, 0, 0, 0, 0, 0, 0, 0]);
    }
    // It is judged as a new one is.
    let record = record_of(&Processor::reset());
    for (at, value, refusal) in [(412, 6, 5), (413, 3, 6), (1, 1, 6), (413, 4, 0)] {
        let mut damaged = record[..OLD_RECORD_LENGTH].to_vec();
        damaged[at] = value;
        assert_eq!(read_record(&damaged), (refusal, Processor::reset()));
    }
}

#[test]
fn lengths() {
    let record = record_of(&Numbers(2).fit_machine());
    let mut longer = record.clone();
    longer.extend([6; 424]);
    for length in 0..longer.len() {
        let refusal = if length == 414 || length == 424 { 0 } else { 4 };
        let (found, machine) = read_record(&longer[..length]);
        assert_eq!(found, refusal, "{length}");
        assert!(refusal == 0 || machine == Processor::reset());
    }
    for length in [0, 1, 413, 414, 415, 423, 425, 828, 848] {
        let mut buffer = vec![0x77; length];
        assert_eq!(write_record(&Processor::reset(), &mut buffer), 4);
        assert!(buffer.iter().all(|&byte| byte == 0x77));
    }
}

#[test]
fn kind_bytes() {
    let machine = Numbers(3).fit_machine();
    let record = record_of(&machine);
    for (at, kind) in [(0, 1), (129, 2), (134, 3), (155, 4), (412, 5), (414, 6)] {
        assert_eq!(record[at], kind);
        for other in (0..=255).filter(|&other| other != kind) {
            let mut damaged = record.clone();
            damaged[at] = other;
            assert_eq!(read_record(&damaged), (5, Processor::reset()));
        }
    }
    // Two kinds exchanged.
    let mut damaged = record;
    damaged[129] = 3;
    damaged[134] = 2;
    assert_eq!(read_record(&damaged).0, 5);
}

/// Sets each bit of the word at `at` alone and reads; bits in `kept` pass.
fn each_bit(at: usize, kept: u32) {
    let mut record = record_of(&Processor::reset());
    for bit in 0..32 {
        put(&mut record, at, 1 << bit);
        let (refusal, machine) = read_record(&record);
        if kept >> bit & 1 == 1 {
            assert_eq!(refusal, 0, "bit {bit} at {at}");
            assert_eq!(record_of(&machine), record);
        } else {
            assert_eq!(refusal, 6, "bit {bit} at {at}");
            assert_eq!(machine, Processor::reset());
        }
    }
}

#[test]
fn never_kept_bits() {
    each_bit(1, 0); // R0
    for n in 1..32 {
        each_bit(1 + 4 * n, 0xFFFF_FFFF);
    }
    each_bit(130, 0xFFFF_FFFF); // PC
    each_bit(135, 0x0FFF_FFFF); // PSW
    each_bit(139, 0x8000_001F); // Index
    each_bit(143, 0xFFFF_F000); // Entry High
    each_bit(147, 0xFFFF_F003); // Entry Low
    each_bit(151, 0xFFFF_FFFF); // Bad Address
    for n in 0..32 {
        each_bit(156 + 8 * n, 0xFFFF_F000);
        each_bit(160 + 8 * n, 0xFFFF_F003);
    }
}

#[test]
fn replacement_index() {
    let mut record = record_of(&Processor::reset());
    for value in 0..=255u8 {
        record[413] = value;
        let refusal = if (4..=31).contains(&value) { 0 } else { 6 };
        assert_eq!(read_record(&record).0, refusal, "{value}");
    }
}

#[test]
fn timer_items() {
    each_bit(415, 0xFFFF_FFFF); // divisor
    each_bit(419, 0xFFFF_FFFF); // counter
    let mut record = record_of(&Processor::reset());
    for value in 0..=255u8 {
        record[423] = value;
        let refusal = if value <= 3 { 0 } else { 6 };
        assert_eq!(read_record(&record).0, refusal, "{value}");
    }
}

#[test]
fn causes_in_table_order() {
    for (item, kind) in [(413, 412), (423, 414)] {
        let mut record = record_of(&Processor::reset());
        record[item] = 0xFF; // cause 6
        assert_eq!(read_record(&record).0, 6);
        record[kind] = 0; // cause 5
        assert_eq!(read_record(&record).0, 5);
        record.pop(); // cause 4
        assert_eq!(read_record(&record).0, 4);
    }

    let mut unfit = Processor::reset();
    unfit.registers[0] = 1;
    let mut buffer = vec![0x77; 424];
    assert_eq!(write_record(&unfit, &mut buffer), 6);
    assert!(buffer.iter().all(|&byte| byte == 0x77));
    assert_eq!(write_record(&unfit, &mut buffer[..414]), 4);
    assert!(buffer.iter().all(|&byte| byte == 0x77));
}
