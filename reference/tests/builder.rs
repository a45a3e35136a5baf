//! The builder of routines, and listings.

use eco32_reference::asm::*;
use eco32_reference::builder::Builder;
use eco32_reference::listing::listing;

fn words(b: Builder) -> Vec<u32> {
    b.finish()
        .unwrap()
        .lines
        .iter()
        .map(|line| line.word)
        .collect()
}

#[test]
fn labels_before_and_behind() {
    let mut b = Builder::new(0xE000_0000);
    b.jump(j, "end", "");
    b.label("back");
    b.op(trap(), "");
    b.branch(beq, 1, 2, "back", "");
    b.branch(bne, 3, 4, "end", "");
    b.jump(jal, "back", "");
    b.label("end");
    assert_eq!(b.here(), 0xE000_0014);
    assert_eq!(
        words(b),
        [j(4), trap(), beq(1, 2, -2), bne(3, 4, 1), jal(-4)]
    );
}

#[test]
fn constants_and_addresses() {
    let mut b = Builder::new(0x0001_0000);
    b.constant(1, 0x1234, "");
    b.constant(2, 0xC000_0000, "");
    b.constant(3, 0x8000_9000, "");
    b.constant(4, 0, "");
    b.address(5, "here", "");
    b.label("here");
    b.data(7, "");
    let expected = [
        ori(1, 0, 0x1234),
        ldhi(2, 0xC000),
        ldhi(3, 0x8000),
        ori(3, 3, 0x9000),
        ori(4, 0, 0),
        ldhi(5, 1),
        ori(5, 5, 0x1C),
        7,
    ];
    assert_eq!(words(b), expected);
}

#[test]
fn wrong_labels_are_named() {
    let mut b = Builder::new(0);
    b.jump(j, "nowhere", "");
    assert_eq!(b.finish().unwrap_err(), "no label nowhere");
    let mut b = Builder::new(0);
    b.label("twice");
    b.op(trap(), "");
    b.label("twice");
    assert_eq!(b.finish().unwrap_err(), "label twice stands twice");
}

#[test]
fn a_branch_reaches_as_far_as_its_field() {
    let far = |words: usize| {
        let mut b = Builder::new(0);
        b.label("start");
        for _ in 0..words {
            b.data(0, "");
        }
        b.branch(beq, 0, 0, "start", "");
        b.finish()
    };
    assert_eq!(
        far(32_767).unwrap().lines.last().unwrap().word,
        beq(0, 0, -32_768)
    );
    assert_eq!(
        far(32_768).unwrap_err(),
        "label start is too far from 00020000"
    );
}

#[test]
fn a_routine_fits_its_frame() {
    let mut b = Builder::new(0);
    b.data(0x0102_0304, "");
    let routine = b.finish().unwrap();
    assert_eq!(routine.bytes(6).unwrap(), [1, 2, 3, 4, 0, 0]);
    assert!(routine.bytes(3).is_err());
}

#[test]
fn a_listing_shows_each_form() {
    let mut b = Builder::new(0x0001_0000);
    b.heading("Forms");
    b.label("first");
    b.op(add(1, 2, 3), "a sum");
    b.op(addi(1, 2, -1), "");
    b.op(ldhi(4, 0xC000), "");
    b.branch(bltu, 5, 6, "first", "");
    b.op(j(0x100), "");
    b.op(jalr(7), "");
    b.op(stb(8, 9, 0x10), "");
    b.op(mvts(10, 3), "");
    b.op(rfx(), "");
    b.data(0xFFFF_FFFF, "all ones");
    let expected = "
; Forms
first:
00010000  00430800  ADD   R1, R2, R3         ; a sum
00010004  0441FFFF  ADDI  R1, R2, FFFF
00010008  7C04C000  LDHI  R4, C000
0001000C  94A6FFFC  BLTU  R5, R6, first
00010010  A8000100  J     00010414
00010014  B4E00000  JALR  R7
00010018  DD280010  STB   R8, R9, 0010
0001001C  E40A0003  MVTS  R10, 3
00010020  BC000000  RFX
00010024  FFFFFFFF  data                     ; all ones
";
    assert_eq!(listing(&b.finish().unwrap()), expected);
}
