//! Reads a sheet on standard input, and prints what the program `sweep` must print for it.

use oracle::sheets::Answer;
use std::io::{self, Read, Write};

fn main() -> io::Result<()> {
    let mut sheet = Vec::new();
    io::stdin().lock().read_to_end(&mut sheet)?;
    let text = Answer::to(&sheet).to_string();
    io::stdout().lock().write_all(text.as_bytes())
}
