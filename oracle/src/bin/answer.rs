//! Reads the jobs of the replay bench on standard input, and writes the published Rust's answers to standard output.

use oracle::jobs::answer;
use oracle::numbers::{write_number, Numbers};
use std::io::{self, BufReader, BufWriter, Write};

fn main() -> io::Result<()> {
    let mut input = Numbers::new(BufReader::new(io::stdin().lock()));
    let mut output = BufWriter::new(io::stdout().lock());
    let mut numbers = Vec::new();
    loop {
        let more = answer(&mut input, &mut numbers).is_some();
        for n in numbers.drain(..) {
            write_number(&mut output, n)?;
        }
        if !more {
            return output.flush();
        }
    }
}
