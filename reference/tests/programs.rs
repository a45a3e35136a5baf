//! The programs `beltrun` (document 01, "Cases") and `first_run`.

use std::fs::File;
use std::io::{Seek, Write};
use std::process::{Command, Stdio};

/// Standard output and exit of `beltrun` for an input by a pipe.
fn beltrun(input: &[u8]) -> String {
    let mut child = Command::new(env!("CARGO_BIN_EXE_beltrun"))
        .stdin(Stdio::piped())
        .stdout(Stdio::piped())
        .stderr(Stdio::piped())
        .spawn()
        .unwrap();
    child.stdin.take().unwrap().write_all(input).unwrap();
    let output = child.wait_with_output().unwrap();
    assert!(output.status.success());
    assert!(output.stderr.is_empty());
    String::from_utf8(output.stdout).unwrap()
}

/// 4,096 ROM bytes that begin with the given words.
fn image(words: &[u32]) -> Vec<u8> {
    let mut bytes: Vec<u8> = words.iter().flat_map(|word| word.to_be_bytes()).collect();
    bytes.resize(4096, 0);
    bytes
}

#[test]
fn beltrun_prints_four_steps() {
    let lines = "1 E0000004 --\n2 E0000004 20\n3 E0000004 20\n4 E0000004 20\n";
    assert_eq!(beltrun(&image(&[0x0401_0005, 0xB800_0000])), lines);
    // ADD R0, R0, R0 throughout
    let lines = "1 E0000004 --\n2 E0000008 --\n3 E000000C --\n4 E0000010 --\n";
    assert_eq!(beltrun(&image(&[])), lines);
    // LDW R1, R0, 0: a miss in user space; JR R0 at E0000008, then a fetch
    // that misses, then JR R0 again
    let lines = "1 E0000008 21\n2 00000000 --\n3 E0000008 21\n4 00000000 --\n";
    let words = [0xC001_0000, 0, 0xAC00_0000];
    assert_eq!(beltrun(&image(&words)), lines);
}

#[test]
fn beltrun_on_short_input() {
    assert_eq!(beltrun(&[]), "short input\n");
    assert_eq!(beltrun(&image(&[0x0401_0005])[..4095]), "short input\n");
}

#[test]
fn beltrun_leaves_further_input_unread() {
    let mut bytes = image(&[0x0401_0005, 0xB800_0000]);
    let expected = beltrun(&bytes);
    bytes.resize(20_000, 0xFF);
    let path = std::env::temp_dir().join(format!("beltrun-input-{}", std::process::id()));
    std::fs::write(&path, &bytes).unwrap();
    let mut input = File::open(&path).unwrap();
    let output = Command::new(env!("CARGO_BIN_EXE_beltrun"))
        .stdin(input.try_clone().unwrap())
        .output()
        .unwrap();
    std::fs::remove_file(&path).unwrap();
    assert_eq!(String::from_utf8(output.stdout).unwrap(), expected);
    // The descriptor is shared, so its position tells what was read.
    assert_eq!(input.stream_position().unwrap(), 4096);
}

#[test]
fn first_run_trace() {
    let output = Command::new(env!("CARGO_BIN_EXE_first_run"))
        .output()
        .unwrap();
    let text = String::from_utf8(output.stdout).unwrap();
    let lines: Vec<&str> = text.lines().collect();
    // Two lines of heading, 40 steps, four lines of results.
    assert_eq!(lines.len(), 46);
    let step = |n: usize| lines[n + 1];
    assert_eq!(step(1), "   1 E0000034 kernel --");
    assert_eq!(step(16), "  16 E0000070 kernel --");
    assert_eq!(step(17), "  17 00010000 user   --");
    assert_eq!(step(20), "  20 0001000C user   --");
    assert_eq!(step(21), "  21 E0000004 kernel 20");
    assert_eq!(step(22), "  22 E000000C kernel --");
    assert_eq!(step(31), "  31 00010010 user   --");
    assert_eq!(step(32), "  32 00010014 user   --");
    assert_eq!(step(33), "  33 E0000004 kernel 22");
    assert_eq!(step(38), "  38 E000001C kernel --");
    assert_eq!(step(39), "  39 E0000030 kernel --");
    assert_eq!(step(40), "  40 E0000030 kernel --");
    let results = [
        "bad address          00010800",
        "word reported        00000ECA",
        "word stored          00000ECA",
        "word left untouched  00000007",
    ];
    assert_eq!(lines[42..], results);
}
