//! Writes the long set of test vectors to a file, or with --check compares a
//! file with it.

use eco32_reference::vectors::required::required;
use eco32_reference::vectors::Set;
use std::process::ExitCode;

const USAGE: &str = "usage: vectors FILE, or vectors --check FILE";

/// Most bytes that the file may have.
const MOST_BYTES: usize = 2_000_000;

fn store(path: &str, bytes: &[u8]) -> Result<(), String> {
    std::fs::write(path, bytes).map_err(|error| format!("cannot write {path}: {error}"))
}

fn compare(path: &str, bytes: &[u8]) -> Result<(), String> {
    let found = std::fs::read(path).map_err(|error| format!("cannot read {path}: {error}"))?;
    if found == bytes {
        return Ok(());
    }
    let same = found.iter().zip(bytes).take_while(|(a, b)| a == b).count();
    Err(format!(
        "{path} differs from the simulator's set from byte {same} on ({} bytes against {})",
        found.len(),
        bytes.len()
    ))
}

/// Builds the set and prints what it covers; fails if that is too little.
fn build() -> Result<Vec<u8>, String> {
    let set = Set::build();
    let required = required();
    print!("{}", set.tally.report(&required));
    println!("file\n  {} bytes", set.bytes.len());
    let holes = set.tally.holes(&required);
    if !holes.is_empty() {
        return Err(format!("the set is too thin:\n{}", holes.join("\n")));
    }
    if set.bytes.len() > MOST_BYTES {
        return Err(format!("the set has more than {MOST_BYTES} bytes"));
    }
    Ok(set.bytes)
}

fn work(arguments: &[String]) -> Result<(), String> {
    match arguments {
        [path] if path != "--check" => store(path, &build()?),
        [check, path] if check == "--check" => compare(path, &build()?),
        _ => Err(USAGE.to_string()),
    }
}

fn main() -> ExitCode {
    let arguments: Vec<String> = std::env::args().skip(1).collect();
    match work(&arguments) {
        Ok(()) => ExitCode::SUCCESS,
        Err(message) => {
            eprintln!("vectors: {message}");
            ExitCode::FAILURE
        }
    }
}
