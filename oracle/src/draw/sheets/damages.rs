//! Damages to a sheet: to bytes, fields, lines and the whole.

use super::{Random, Sheet};
use crate::grids::CABLES;
use crate::sheets::WIDTH;

/// Each with its line feed, if it has one.
type Lines = Vec<Vec<u8>>;
/// Does nothing where there is nothing to be damaged.
type Damage = fn(&mut Lines, &mut Random) -> Option<()>;

type Named = (&'static str, Damage);

/// To bytes and fields.
const SMALL: [Named; 6] = [
    ("byte replaced", replace_bytes),
    ("byte inserted", insert_bytes),
    ("byte deleted", delete_byte),
    ("digit changed", change_digit),
    ("two bytes swapped", swap_bytes),
    ("field rewritten", rewrite_field),
];

const OF_LINES: [Named; 14] = [
    ("line cut", cut_line),
    ("line lengthened", lengthen_line),
    ("letter changed", change_letter),
    ("lines swapped", swap_lines),
    ("line doubled", double_line),
    ("line removed", remove_line),
    ("line moved", move_line),
    ("T or O again", repeat_head),
    ("T or O missing", remove_head),
    ("empty line", add_empty_line),
    ("many lines more", add_many_lines),
    ("no last line feed", cut_last_feed),
    ("carriage returns", add_returns),
    ("cut short", cut_short),
];

/// After which nothing is left of a sheet.
const OF_ALL: [Named; 2] = [("nothing", clear), ("noise", make_noise)];

#[cfg(test)]
pub const KINDS: usize = SMALL.len() + OF_LINES.len() + OF_ALL.len();

/// Does one to three damages, and names them.
pub fn damage(lines: &mut Lines, random: &mut Random) -> Vec<&'static str> {
    let choice: &[Named] = match random.below(16) {
        0 => &OF_ALL,
        1..=8 => &SMALL,
        _ => &OF_LINES,
    };
    let times = random.pick(&[1, 1, 1, 2, 3]);
    (0..times)
        .map(|_| {
            let (name, damage) = random.pick(choice);
            // What it could not be done to is a sheet that is left as it was.
            let _ = damage(lines, random);
            name
        })
        .collect()
}

/// Every edit of one place of a sheet: each of `BYTES` over what stands there, before it, and nothing in its place.
pub fn every_edit(sheet: &[u8]) -> impl Iterator<Item = Sheet> + '_ {
    (0..=sheet.len()).flat_map(move |at| {
        let put = move |over: usize, put: &[u8], name| {
            let mut bytes = sheet.to_vec();
            let end = (at + over).min(bytes.len());
            bytes.splice(at..end, put.iter().copied());
            Sheet {
                bytes,
                damages: vec![name],
            }
        };
        let [(replaced, _), (inserted, _), (deleted, _), ..] = SMALL;
        BYTES
            .into_iter()
            .flat_map(move |b| [put(b.len(), b, replaced), put(0, b, inserted)])
            .chain([put(1, b"", deleted)])
    })
}

/// Of every class: controls, neighbours of the digits, what numbers have elsewhere, letters, more than one byte in UTF-8, no UTF-8.
const BYTES: [&[u8]; 36] = [
    b"\0",
    b"\x01",
    b"\x1b",
    b"\x0b",
    b"\x7f",
    b"\t",
    b"\r",
    b"\n",
    b"0",
    b"1",
    b"7",
    b"9",
    b"/",
    b":",
    b"+",
    b"-",
    b".",
    b",",
    b"_",
    b" ",
    b"T",
    b"O",
    b"S",
    b"C",
    b"B",
    b"Z",
    b"s",
    b"e",
    b"E",
    b"\x80",
    b"\xb0",
    b"\xff",
    "\u{e9}".as_bytes(),
    "\u{a0}".as_bytes(),
    "\u{663}".as_bytes(),
    "\u{ff11}".as_bytes(),
];

/// What may stand in a field, or almost.
const FIELDS: [&str; 27] = [
    "",
    ".",
    "5.",
    ".5",
    "5 ",
    "5. ",
    "1 2",
    "1 .5",
    "1. 5",
    "1.2.3",
    "1..2",
    "0.1234567",
    "1.000000",
    "0.0",
    "00.10",
    "000000000000",
    "000000000001",
    "00000.000001",
    "999999999999",
    "9999999999.9",
    "-0",
    "+1",
    "1e3",
    "1,5",
    "0x1F",
    "inf",
    "NaN",
];

fn some(n: usize, random: &mut Random) -> Option<usize> {
    (n > 0).then(|| random.below(n as u64) as usize)
}

/// Often the first two or the last.
fn some_line(lines: &Lines, random: &mut Random) -> Option<usize> {
    let any = some(lines.len(), random)?;
    let last = lines.len() - 1;
    Some(random.pick(&[0, 1, last, any, any, any]).min(last))
}

/// A place in a line: its letter, the first or last column of a field, any column, a point, the line feed.
fn some_place(line: &[u8], random: &mut Random) -> Option<usize> {
    let any = some(line.len(), random)?;
    let last = line.len() - 1;
    let field = any / WIDTH * WIDTH;
    let point = line.iter().position(|&b| b == b'.').unwrap_or(any);
    let place = random.pick(&[0, field + 1, field + WIDTH, any, any, point, last]);
    Some(place.min(last))
}

/// Puts bytes at a place, over as many others or none.
fn put_bytes(lines: &mut Lines, over: bool, random: &mut Random) -> Option<()> {
    let at = some_line(lines, random)?;
    let line = &mut lines[at];
    let place = some_place(line, random)?;
    let bytes = random.pick(&BYTES);
    let end = if over { place + bytes.len() } else { place };
    line.splice(place..end.min(line.len()), bytes.iter().copied());
    Some(())
}

fn replace_bytes(lines: &mut Lines, random: &mut Random) -> Option<()> {
    put_bytes(lines, true, random)
}

fn insert_bytes(lines: &mut Lines, random: &mut Random) -> Option<()> {
    put_bytes(lines, false, random)
}

fn delete_byte(lines: &mut Lines, random: &mut Random) -> Option<()> {
    let at = some_line(lines, random)?;
    let place = some_place(&lines[at], random)?;
    lines[at].remove(place);
    Some(())
}

/// To another, which leaves the form.
fn change_digit(lines: &mut Lines, random: &mut Random) -> Option<()> {
    let at = some_line(lines, random)?;
    let mut digits: Vec<&mut u8> = lines[at]
        .iter_mut()
        .filter(|b| b.is_ascii_digit())
        .collect();
    let which = some(digits.len(), random)?;
    *digits[which] = b'0' + random.below(10) as u8;
    Some(())
}

fn swap_bytes(lines: &mut Lines, random: &mut Random) -> Option<()> {
    let at = some_line(lines, random)?;
    let [a, b] = [
        some_place(&lines[at], random)?,
        some_place(&lines[at], random)?,
    ];
    lines[at].swap(a, b);
    Some(())
}

fn rewrite_field(lines: &mut Lines, random: &mut Random) -> Option<()> {
    let at = some_line(lines, random)?;
    let line = &mut lines[at];
    let first = 1 + WIDTH * some(line.len().saturating_sub(2) / WIDTH, random)?;
    let text = format!("{:>WIDTH$}", random.pick(&FIELDS));
    line.splice(first..first + WIDTH, text.bytes());
    Some(())
}

/// By a column, by a field, beside that, or to any length. The line feed stays.
fn cut_line(lines: &mut Lines, random: &mut Random) -> Option<()> {
    let at = some_line(lines, random)?;
    let line = &mut lines[at];
    let end = line.len().checked_sub(1)?;
    let any = random.below(end as u64 + 1) as usize;
    let cut = random.pick(&[1, 1, 2, WIDTH - 1, WIDTH, WIDTH, WIDTH + 1, any, end]);
    line.drain(end.saturating_sub(cut)..end);
    Some(())
}

/// By as many columns as lines are cut by.
fn lengthen_line(lines: &mut Lines, random: &mut Random) -> Option<()> {
    let at = some_line(lines, random)?;
    let line = &mut lines[at];
    let end = line.len().checked_sub(1)?;
    let longer = random.pick(&[1, 1, 2, WIDTH - 1, WIDTH, WIDTH, WIDTH + 1, 1000, 100_000]);
    let fill = random.pick(b" 00\0x");
    line.splice(end..end, vec![fill; longer]);
    Some(())
}

/// To one of the others, to a small one, or to what none begins with.
fn change_letter(lines: &mut Lines, random: &mut Random) -> Option<()> {
    let at = some_line(lines, random)?;
    *lines[at].first_mut()? = random.pick(b"TOSCBTOSCBtoscbXZ D\0");
    Some(())
}

/// Two neighbours, or any two.
fn swap_lines(lines: &mut Lines, random: &mut Random) -> Option<()> {
    let a = some_line(lines, random)?;
    let b = match random.below(2) {
        0 => (a + 1).min(lines.len() - 1),
        _ => some_line(lines, random)?,
    };
    lines.swap(a, b);
    Some(())
}

/// Beside itself.
fn double_line(lines: &mut Lines, random: &mut Random) -> Option<()> {
    let at = some_line(lines, random)?;
    lines.insert(at, lines[at].clone());
    Some(())
}

fn remove_line(lines: &mut Lines, random: &mut Random) -> Option<()> {
    let at = some_line(lines, random)?;
    lines.remove(at);
    Some(())
}

fn move_line(lines: &mut Lines, random: &mut Random) -> Option<()> {
    let [from, to] = [some_line(lines, random)?, some_line(lines, random)?];
    let line = lines.remove(from);
    lines.insert(to, line);
    Some(())
}

/// At the end, or before any line.
fn repeat_head(lines: &mut Lines, random: &mut Random) -> Option<()> {
    let head = lines.get(random.below(2) as usize)?.clone();
    let any = some(lines.len(), random)?;
    let at = random.pick(&[any, 1, 2, lines.len()]);
    lines.insert(at.min(lines.len()), head);
    Some(())
}

/// One of them, or both.
fn remove_head(lines: &mut Lines, random: &mut Random) -> Option<()> {
    let (from, to) = random.pick(&[(0, 1), (1, 2), (0, 2)]);
    let to = to.min(lines.len());
    (from < to).then(|| lines.drain(from..to))?;
    Some(())
}

fn add_empty_line(lines: &mut Lines, random: &mut Random) -> Option<()> {
    let any = random.below(lines.len() as u64 + 1) as usize;
    let at = random.pick(&[0, any, lines.len()]);
    let empty: &[u8] = random.pick(&[b"\n", b"\n", b" \n", b"\r\n", b"\n\n"]);
    lines.insert(at, empty.to_vec());
    Some(())
}

/// So many copies of a line that there is no room for them, and at times a line of wrong form or order after them.
fn add_many_lines(lines: &mut Lines, random: &mut Random) -> Option<()> {
    let at = some_line(lines, random)?;
    let copies = vec![lines[at].clone(); CABLES as usize + random.below(200) as usize];
    lines.splice(at..at, copies);
    match random.below(4) {
        0 => change_letter(lines, random),
        1 => cut_line(lines, random),
        _ => Some(()),
    }
}

fn cut_last_feed(lines: &mut Lines, _: &mut Random) -> Option<()> {
    lines.last_mut()?.pop();
    Some(())
}

/// Before the line feed of each line, of one, or in its place.
fn add_returns(lines: &mut Lines, random: &mut Random) -> Option<()> {
    let one = some_line(lines, random)?;
    let way = random.below(3);
    for (at, line) in lines.iter_mut().enumerate() {
        let end = line.len().saturating_sub(1);
        match way {
            0 => line.insert(end, b'\r'),
            1 if at == one => line.insert(end, b'\r'),
            1 => {}
            _ => line[end..].fill(b'\r'),
        }
    }
    Some(())
}

/// At any byte, often at the end of a line.
fn cut_short(lines: &mut Lines, random: &mut Random) -> Option<()> {
    let at = some_line(lines, random)?;
    lines.truncate(at + 1);
    if random.below(2) == 0 {
        let any = some(lines[at].len(), random)?;
        lines[at].truncate(any);
    }
    Some(())
}

fn clear(lines: &mut Lines, _: &mut Random) -> Option<()> {
    lines.clear();
    Some(())
}

/// Any bytes, or those that sheets have.
fn make_noise(lines: &mut Lines, random: &mut Random) -> Option<()> {
    let known = random.below(2) == 0;
    let length = random.pick(&[1, 13, 1000]) + random.below(100);
    let noise = (0..length).map(|_| match known {
        true => random.pick(b"TOSCB  0123456789.\n"),
        false => random.bits() as u8,
    });
    *lines = vec![noise.collect()];
    Some(())
}
