//! Page views (document 01, "Runs and views").

use crate::common;
use crate::common::Numbers;
use eco32_reference::{page_view, Processor, Stepped, TlbEntry};

/// RAM of three frames with a pattern that differs from frame to frame.
fn ram() -> Vec<u8> {
    (0..3 * 4096)
        .map(|n| (n / 4096 * 64 + n % 61) as u8)
        .collect()
}

fn machine() -> Processor {
    let mut machine = Processor::reset();
    let entries = [
        (5, 0x0000_0000, 0x0000_1001),  // read-only
        (6, 0x1234_5000, 0x0000_2003),  // writable
        (7, 0x8000_0000, 0x0000_0001),  // kernel space
        (8, 0x0000_1000, 0x0000_1002),  // invalid
        (9, 0x0000_2000, 0x0000_3003),  // behind the end of RAM
        (10, 0x0000_3000, 0x2000_0003), // ROM
        (11, 0x0000_4000, 0x3050_0003), // belt registers
        (12, 0x0000_5000, 0xFFFF_F003), // unused physical addresses
        (13, 0xC000_0000, 0x0000_2003), // direct-mapped page number
        (14, 0x0000_6000, 0x0000_2001), // two entries for page 00006
        (15, 0x0000_6000, 0x0000_1001),
        (16, 0x0000_7000, 0x0000_0000), // two entries for page 00007
        (17, 0x0000_7000, 0x0000_1003),
        (18, 0xBFFF_F000, 0x0000_2001),
    ];
    for (index, high, low) in entries {
        machine.tlb[index] = TlbEntry { high, low };
    }
    machine
}

/// Page, its slot and the offset of its frame, or nothing for refusal 8.
const TABLE: [(u64, Option<(u32, usize)>); 27] = [
    (0x00000, Some((5, 4096))),
    (0x12345, Some((6, 8192))),
    (0x80000, Some((7, 0))),
    (0xBFFFF, Some((18, 8192))),
    (0x00006, Some((14, 8192))),
    (0xC0000, Some((32, 0))),
    (0xC0001, Some((32, 4096))),
    (0xC0002, Some((32, 8192))),
    (0xC0003, None),
    (0xDFFFF, None),
    (0xE0000, None),
    (0xF0500, None),
    (0xFFFFF, None),
    (0x00001, None),
    (0x00002, None),
    (0x00003, None),
    (0x00004, None),
    (0x00005, None),
    (0x00007, None),
    (0x00008, None),
    (0x7FFFF, None),
    (0x10_0000, None),
    (0x1C_0000, None),
    (0x1_0000_0000, None),
    (0x1_000C_0000, None),
    (0x000C_0000_0000_0000, None),
    (u64::MAX, None),
];

#[test]
fn frames() {
    let ram = ram();
    // The mode of the machine does not matter.
    for psw in [0, 0x0400_0000, 0x0FFF_FFFF] {
        let mut machine = machine();
        machine.psw = psw;
        for (page, frame) in TABLE {
            let view = page_view(&ram, &machine, page);
            match frame {
                Some((slot, offset)) => {
                    assert_eq!(view.refusal, 0, "{page:05X}");
                    assert_eq!((view.slot, view.offset), (slot, offset), "{page:05X}");
                    assert_eq!(view.part, &ram[offset..offset + 4096]);
                    assert!(std::ptr::eq(view.part.as_ptr(), &ram[offset]));
                }
                None => {
                    assert_eq!(view.refusal, 8, "{page:05X}");
                    assert_eq!((view.slot, view.offset, view.part.len()), (33, 0, 0));
                }
            }
        }
    }
}

#[test]
fn refusals_in_table_order() {
    let ram = ram();
    let mut unfit = machine();
    unfit.replacement = 3;
    let fit = machine();
    for short_ram in [false, true] {
        for is_unfit in [false, true] {
            for bad_page in [false, true] {
                let ram = if short_ram { &ram[..8191] } else { &ram[..] };
                let machine = if is_unfit { &unfit } else { &fit };
                let page = if bad_page { 0x10_0000 } else { 0xC0000 };
                let refusal = match (short_ram, is_unfit, bad_page) {
                    (true, _, _) => 1,
                    (false, true, _) => 6,
                    (false, false, true) => 8,
                    (false, false, false) => 0,
                };
                let view = page_view(ram, machine, page);
                assert_eq!(view.refusal, refusal);
                let (slot, length) = if refusal == 0 { (32, 4096) } else { (33, 0) };
                assert_eq!((view.slot, view.part.len()), (slot, length));
            }
        }
    }
}

#[test]
fn view_agrees_with_a_kernel_mode_load() {
    // LDB R3, R1, 0 from ROM, over arbitrary machines.
    let mut numbers = Numbers(4);
    for _ in 0..200 {
        let mut rig = common::Rig::with_rom(&[0xCC23_0000]);
        rig.ram = (0..8192).map(|n| (n / 4096 + 1) as u8).collect();
        for entry in rig.cpu.tlb.iter_mut() {
            entry.high = (numbers.next() & 0xF) << 12;
            entry.low = (numbers.next() & 0x3) << 12 | (numbers.next() & 3);
        }
        for page in 0..16 {
            let view = page_view(&rig.ram, &rig.cpu, page);
            let mut load = rig.clone().set(1, (page as u32) << 12);
            let Stepped { eid, slot, .. } = load.stepped(0);
            assert_eq!(view.slot, slot);
            if view.refusal == 0 {
                assert_eq!(eid, 32);
                assert_eq!(load.cpu.registers[3], u32::from(view.part[0]));
                assert_eq!(view.offset, (view.part[0] as usize - 1) * 4096);
            } else {
                assert_eq!(view.refusal, 8);
                assert!(matches!(eid, 16 | 21 | 23), "EID {eid}");
            }
        }
    }
}
