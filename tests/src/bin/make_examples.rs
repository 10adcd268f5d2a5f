//! Writes the records of examples/ with the second writer, and beside each the
//! lines that playing it prints, worked out by hand:
//!
//!     cargo run --bin make_examples
//!
//! The second player must print the same lines.

use std::process::ExitCode;
use std::{fs, io};

use gloamish_tests::examples;
use gloamish_tests::playback::{play, text};

fn main() -> io::Result<ExitCode> {
    for example in examples::all() {
        let bytes = example.bytes();
        if play(&bytes) != example.lines {
            println!("{}: the second player prints other lines", example.name);
            return Ok(ExitCode::FAILURE);
        }
        let (record, lines) = example.paths();
        if let Some(folder) = record.parent() {
            fs::create_dir_all(folder)?;
        }
        fs::write(record, &bytes)?;
        fs::write(lines, text(&example.lines))?;
        println!("{}: {} bytes", example.name, bytes.len());
    }
    Ok(ExitCode::SUCCESS)
}
