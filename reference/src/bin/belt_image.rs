//! Writes the files of the belt example to a directory, or with --check
//! compares the directory's files with them.

use eco32_reference::belt::Images;
use std::path::Path;
use std::process::ExitCode;

const USAGE: &str = "usage: belt_image DIR, or belt_image --check DIR";

fn store(path: &Path, bytes: &[u8]) -> Result<(), String> {
    std::fs::write(path, bytes).map_err(|error| format!("cannot write {}: {error}", path.display()))
}

fn compare(path: &Path, bytes: &[u8]) -> Result<(), String> {
    let found =
        std::fs::read(path).map_err(|error| format!("cannot read {}: {error}", path.display()))?;
    if found == bytes {
        return Ok(());
    }
    Err(format!("{} is not what the builder writes", path.display()))
}

fn each_file(directory: &str, act: fn(&Path, &[u8]) -> Result<(), String>) -> Result<(), String> {
    for (name, bytes) in Images::build()?.files()? {
        act(&Path::new(directory).join(name), &bytes)?;
    }
    Ok(())
}

fn work(arguments: &[String]) -> Result<(), String> {
    match arguments {
        [directory] if directory != "--check" => each_file(directory, store),
        [check, directory] if check == "--check" => each_file(directory, compare),
        _ => Err(USAGE.to_string()),
    }
}

fn main() -> ExitCode {
    let arguments: Vec<String> = std::env::args().skip(1).collect();
    match work(&arguments) {
        Ok(()) => ExitCode::SUCCESS,
        Err(message) => {
            eprintln!("belt_image: {message}");
            ExitCode::FAILURE
        }
    }
}
