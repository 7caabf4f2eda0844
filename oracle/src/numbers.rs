//! The replay bench's lines: a number right-justified in 21 columns after spaces, then a line feed.

use std::io::{self, Read, Write};

pub const COLUMNS: usize = 21;
const LINE: usize = COLUMNS + 1;

/// The bits that every NaN is written with.
pub const NAN: u64 = 9221120237041090560;

/// The numbers of an input, up to its end or the first line of another form.
pub struct Numbers<R> {
    input: R,
    line: [u8; LINE],
}

impl<R: Read> Numbers<R> {
    pub fn new(input: R) -> Self {
        Numbers {
            input,
            line: [0; LINE],
        }
    }
}

impl<R: Read> Iterator for Numbers<R> {
    type Item = u64;

    fn next(&mut self) -> Option<u64> {
        self.input.read_exact(&mut self.line).ok()?;
        number(&self.line)
    }
}

fn number(line: &[u8; LINE]) -> Option<u64> {
    let (columns, end) = line.split_at(COLUMNS);
    let start = columns.iter().position(|&b| b != b' ')?;
    if end != b"\n" {
        return None;
    }
    let mut n: u64 = 0;
    for &b in &columns[start..] {
        if !b.is_ascii_digit() {
            return None;
        }
        n = n.checked_mul(10)?.checked_add(u64::from(b - b'0'))?;
    }
    Some(n)
}

pub fn write_number(output: &mut impl Write, mut n: u64) -> io::Result<()> {
    let mut line = [b' '; LINE];
    line[COLUMNS] = b'\n';
    let mut at = COLUMNS;
    loop {
        at -= 1;
        line[at] = b'0' + (n % 10) as u8;
        n /= 10;
        if n == 0 {
            return output.write_all(&line);
        }
    }
}

/// The double with these bits; any NaN pattern is the one NaN.
pub fn double(bits: u64) -> f64 {
    let x = f64::from_bits(bits);
    if x.is_nan() {
        f64::from_bits(NAN)
    } else {
        x
    }
}

pub fn bits(x: f64) -> u64 {
    if x.is_nan() {
        NAN
    } else {
        x.to_bits()
    }
}

/// Whether two answers are alike: all NaNs are, and zeros of both signs.
pub fn alike(a: u64, b: u64) -> bool {
    let (x, y) = (f64::from_bits(a), f64::from_bits(b));
    a == b || x == y || (x.is_nan() && y.is_nan())
}

#[cfg(test)]
mod tests {
    use super::*;

    fn read(text: &str) -> Vec<u64> {
        Numbers::new(text.as_bytes()).collect()
    }

    #[test]
    fn written_and_read() {
        for n in [0, 9, 10, NAN, u64::MAX] {
            let mut line = Vec::new();
            write_number(&mut line, n).unwrap();
            assert_eq!(line.len(), LINE);
            assert_eq!(Numbers::new(&line[..]).collect::<Vec<u64>>(), [n]);
        }
    }

    #[test]
    fn other_forms() {
        assert_eq!(
            read("                    7\n                    8\n"),
            [7, 8]
        );
        assert_eq!(read("000000000000000000007\n"), [7]);
        let nothing: [u64; 0] = [];
        for line in [
            "                     \n",
            "                   7 \n",
            "                  7 7\n",
            "                   -7\n",
            " 18446744073709551616\n",
            "                    7 ",
            "                    7",
        ] {
            assert_eq!(read(line), nothing);
        }
    }

    #[test]
    fn alike_or_not() {
        assert!(alike(0, 1 << 63));
        assert!(alike(NAN, u64::MAX));
        assert!(!alike(0, 1));
        assert!(!alike(NAN, f64::INFINITY.to_bits()));
    }
}
