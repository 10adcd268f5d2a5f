//! Plays a record from standard input on plain arrays, and prints each answer:
//!
//!     cargo run --release --bin plain_play < RECORD

use std::io::{self, Read};

use gloamish_tests::plain;

fn main() -> io::Result<()> {
    let mut string = Vec::new();
    io::stdin().lock().read_to_end(&mut string)?;
    plain::play(&string, io::stdout().lock())
}
