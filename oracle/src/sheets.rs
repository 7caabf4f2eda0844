//! The program `sweep`: a sheet's bytes, and the text that is printed for them. Written from document 01's point 9 and its table of
//! refusals; the rules 1 to 10 are those of `rules`, and the rows those of `jobs::sweeps`.

use crate::dc_switching::DcSwitchingSimulator;
use crate::decimals::column;
use crate::grids::{self, Grid, SweepOrder};
use crate::jobs::sweeps::{Row, Sweep};
use crate::jobs::SWEEP;
use crate::numbers::double;
use crate::plan::{MECHANICAL, MMC};
use crate::rules;
use std::fmt;
use std::ops::Range;
use std::vec::IntoIter;

/// The columns of a field.
pub const WIDTH: usize = 12;
/// The most digits after a point.
pub const PLACES: usize = 6;

/// A kind of line: its letter, how many fields follow, and which of them are whole numbers.
pub struct Form {
    pub letter: u8,
    pub fields: usize,
    pub whole: Range<usize>,
}

const fn form(letter: u8, fields: usize, whole: Range<usize>) -> Form {
    Form {
        letter,
        fields,
        whole,
    }
}

/// In the order in which they stand in a sheet.
pub const FORMS: [Form; 5] = [
    form(b'T', 2, 0..0),
    form(b'O', 4, 2..4),
    form(b'S', 11, 0..3),
    form(b'C', 7, 0..3),
    form(b'B', 7, 0..3),
];

// Their places.
const TIMES: usize = 0;
const ORDER: usize = 1;
const STATION: usize = 2;
const CABLE: usize = 3;
const BREAKER: usize = 4;

const WRONG_FORM: u64 = 12;
const WRONG_ORDER: u64 = 13;

/// A line of right form: the place of its kind, and its fields, doubles by their bits.
struct Line {
    form: usize,
    fields: Vec<u64>,
}

/// A rule, and the line that it is reported at: 0 for those that no line stands for.
#[derive(Clone, Copy, PartialEq, Eq, Debug)]
pub struct Refused {
    pub rule: u64,
    pub line: u64,
}

/// What is printed for a sheet.
#[derive(PartialEq, Eq, Debug)]
pub enum Answer {
    Refused(Refused),
    Swept {
        rows: Vec<Row>,
        cases: u64,
        steps: u64,
    },
}

impl Answer {
    pub fn to(sheet: &[u8]) -> Answer {
        match read(sheet) {
            Err(refused) => Answer::Refused(refused),
            Ok(sweep) => {
                let cases = sweep.cases.len() as u64;
                Answer::Swept {
                    rows: sweep.cases.iter().filter_map(|&c| sweep.row(c)).collect(),
                    cases,
                    steps: cases * sweep.steps(),
                }
            }
        }
    }
}

impl fmt::Display for Answer {
    fn fmt(&self, f: &mut fmt::Formatter) -> fmt::Result {
        match self {
            Answer::Refused(Refused { rule, line }) => writeln!(f, "X{rule:>4}{line:>12}"),
            Answer::Swept { rows, cases, steps } => {
                for [cable, fault_type, tenth, reasons, doubles @ ..] in rows {
                    write!(f, "R{cable:>4}{fault_type:>4}{tenth:>4}{reasons:>4}")?;
                    for &bits in doubles {
                        let column = column(double(bits));
                        f.write_str(std::str::from_utf8(&column).expect("digits or stars"))?;
                    }
                    writeln!(f)?;
                }
                writeln!(f, "E{cases:>12}{steps:>12}")
            }
        }
    }
}

/// The sweep that a sheet asks for, or what refuses it: 12 and 13 before all others.
pub fn read(sheet: &[u8]) -> Result<Sweep, Refused> {
    let lines = lines(sheet)?;
    let grid = grid(&lines);
    let order = order(&lines);
    let refused = rules::checked(SWEEP).into_iter().find_map(|rule| {
        let line = line_refused_by(rule, &lines, &grid, &order)?;
        Some(Refused { rule, line })
    });
    match refused {
        Some(refused) => Err(refused),
        None => Ok(Sweep::of(grid, order)),
    }
}

/// The first line of wrong form or out of order decides, and a form before an order.
fn lines(sheet: &[u8]) -> Result<Vec<Line>, Refused> {
    let mut lines: Vec<Line> = Vec::new();
    for (at, text) in (1..).zip(sheet.split_inclusive(|&b| b == b'\n')) {
        let refused = |rule| Refused { rule, line: at };
        // What follows the last line feed is a line of wrong form.
        let line = text.strip_suffix(b"\n").and_then(line);
        let line = line.ok_or(refused(WRONG_FORM))?;
        if !may_follow(lines.last(), line.form) {
            return Err(refused(WRONG_ORDER));
        }
        lines.push(line);
    }
    // T or O is missing, and no line stands in its place.
    if lines.len() <= ORDER {
        return Err(Refused {
            rule: WRONG_ORDER,
            line: lines.len() as u64 + 1,
        });
    }
    Ok(lines)
}

/// One T, one O, then stations, cables and breakers, as many as there are of each.
fn may_follow(before: Option<&Line>, form: usize) -> bool {
    match before.map(|line| line.form) {
        None => form == TIMES,
        Some(TIMES) => form == ORDER,
        Some(ORDER) => form > ORDER,
        Some(before) => form >= before,
    }
}

/// A line without its line feed.
fn line(text: &[u8]) -> Option<Line> {
    let (letter, columns) = text.split_first()?;
    let form = FORMS.iter().position(|form| form.letter == *letter)?;
    let Form { fields, whole, .. } = &FORMS[form];
    if columns.len() != fields * WIDTH {
        return None;
    }
    let fields = columns.chunks_exact(WIDTH).enumerate();
    let fields = fields.map(|(i, field)| number(field, whole.contains(&i)));
    Some(Line {
        form,
        fields: fields.collect::<Option<_>>()?,
    })
}

/// Spaces, digits, then perhaps a point and 1 to 6 digits, but in no whole number. The value is the nearest double, by its bits.
fn number(field: &[u8], whole: bool) -> Option<u64> {
    let text = std::str::from_utf8(field).ok()?.trim_start_matches(' ');
    let are_digits = |part: &str| !part.is_empty() && part.bytes().all(|b| b.is_ascii_digit());
    match text.split_once('.') {
        None if !are_digits(text) => None,
        None if whole => text.parse().ok(),
        Some(_) if whole => None,
        Some((_, places)) if places.len() > PLACES => None,
        Some((digits, places)) if !(are_digits(digits) && are_digits(places)) => None,
        _ => text.parse().ok().map(f64::to_bits),
    }
}

fn of_form(lines: &[Line], form: usize) -> impl Iterator<Item = &Line> {
    lines.iter().filter(move |line| line.form == form)
}

/// Without the stations and breakers of no known topology or kind, which rules 6 and 8 refuse by their lines. The counts have them.
fn grid(lines: &[Line]) -> Grid {
    let [dt_us, duration_ms] = [0, 1].map(|i| double(lines[TIMES].fields[i]));
    let count = |form| of_form(lines, form).count() as u64;
    let mut simulator = DcSwitchingSimulator::new(dt_us, duration_ms);
    simulator.stations = parts(lines, STATION, grids::station);
    simulator.cables = parts(lines, CABLE, grids::cable);
    simulator.breakers = parts(lines, BREAKER, grids::breaker);
    Grid {
        simulator,
        dt_us,
        duration_ms,
        n_stations: count(STATION),
        n_cables: count(CABLE),
        n_breakers: count(BREAKER),
    }
}

/// Takes a part from the fields of its line, which stand in the order of the jobs.
type Part<T> = fn(&mut IntoIter<u64>) -> Option<T>;

fn taken<T>(part: Part<T>, fields: &[u64]) -> Option<T> {
    part(&mut Vec::from(fields).into_iter())
}

fn parts<T>(lines: &[Line], form: usize, part: Part<T>) -> Vec<T> {
    of_form(lines, form)
        .filter_map(|line| taken(part, &line.fields))
        .collect()
}

fn order(lines: &[Line]) -> SweepOrder {
    taken(grids::order, &lines[ORDER].fields).expect("an order has four fields")
}

/// The line at which a rule is reported, if it applies.
fn line_refused_by(rule: u64, lines: &[Line], grid: &Grid, order: &SweepOrder) -> Option<u64> {
    let first = |form: usize, refused: fn(&[u64]) -> bool| {
        let at = |line: &Line| line.form == form && refused(&line.fields);
        lines.iter().position(at).map(|at| at as u64 + 1)
    };
    match rule {
        4 => rules::applies(rule, grid).then_some(TIMES as u64 + 1),
        6 => first(STATION, station_refused),
        7 => first(CABLE, |fields| {
            refused(fields, grids::cable, rules::cable_outside)
        }),
        8 => first(BREAKER, breaker_refused),
        9 => rules::rule_9_of_order(order).then_some(ORDER as u64 + 1),
        _ => rules::applies(rule, grid).then_some(0),
    }
}

fn refused<T>(fields: &[u64], part: Part<T>, outside: fn(&T) -> bool) -> bool {
    taken(part, fields).is_none_or(|part| outside(&part))
}

/// An unknown topology, submodules in another than an MMC, or a field outside its range.
fn station_refused(fields: &[u64]) -> bool {
    let [topology, submodules] = [fields[0], fields[1]];
    topology != MMC && submodules != 0 || refused(fields, grids::station, rules::station_outside)
}

/// An unknown kind, a mechanical breaker's second number that is not 0, or a field outside its range.
fn breaker_refused(fields: &[u64]) -> bool {
    let [kind, second] = [fields[2], fields[4]];
    kind == MECHANICAL && double(second) != 0.0
        || refused(fields, grids::breaker, rules::breaker_outside)
}

#[cfg(test)]
mod tests {
    use super::*;

    /// A line of a letter and fields.
    fn line_of(letter: char, fields: &[&str]) -> String {
        let columns: String = fields.iter().map(|field| format!("{field:>12}")).collect();
        format!("{letter}{columns}\n")
    }

    fn station() -> String {
        let mut fields = ["0"; 11];
        fields[3] = "100";
        line_of('S', &fields)
    }

    /// Document 01's example, line by line.
    fn example() -> Vec<String> {
        vec![
            line_of('T', &["1000", "1"]),
            line_of('O', &["0"; 4]),
            station(),
            station(),
            line_of('C', &["0", "0", "1", "1", "0", "0", "1"]),
            line_of('B', &["0"; 7]),
        ]
    }

    fn printed(lines: &[String]) -> String {
        Answer::to(lines.concat().as_bytes()).to_string()
    }

    /// The example with a line in the place of another, counted from 1.
    fn with(at: usize, line: String) -> Vec<String> {
        let mut lines = example();
        lines[at - 1] = line;
        lines
    }

    /// The example with one field of a line changed.
    fn with_field(at: usize, field: usize, text: &str) -> Vec<String> {
        let mut line = example()[at - 1].clone();
        let first = 1 + WIDTH * field;
        line.replace_range(first..first + WIDTH, &format!("{text:>12}"));
        with(at, line)
    }

    fn refused_as(lines: &[String], rule: u64, line: u64) {
        let expected = format!("X{rule:>4}{line:>12}\n");
        assert_eq!(printed(lines), expected, "{lines:?}");
    }

    #[test]
    fn worked_example() {
        let text = "\
R   0   0   0   8             0.000000             0.000000             0.000000             0.000000
R   0   1   0   8             0.000000             0.000000             0.000000             0.000000
R   0   2   0   8             0.000000             0.000000             0.000000             0.000000
E           3           3
";
        assert_eq!(printed(&example()), text);
    }

    /// Rows have the bits of their doubles, and the lines what these are.
    #[test]
    fn columns_of_a_row() {
        let doubles = [12.34567849, -0.0, f64::NAN, -1e12].map(f64::to_bits);
        let mut row = [3, 1, 10, 14, 0, 0, 0, 0];
        row[4..].copy_from_slice(&doubles);
        let answer = Answer::Swept {
            rows: vec![row],
            cases: 1,
            steps: 2,
        };
        let text = "\
R   3   1  10  14            12.345678             0.000000******************************************
E           1           2
";
        assert_eq!(answer.to_string(), text);
    }

    /// The sheets in `examples/`, each with its listing beside it.
    #[test]
    fn examples() {
        let folder = concat!(env!("CARGO_MANIFEST_DIR"), "/../examples");
        for name in ["example", "link", "ring", "planner", "slow", "refused"] {
            let read = |ending| std::fs::read(format!("{folder}/{name}.{ending}")).unwrap();
            let printed = Answer::to(&read("sheet")).to_string();
            assert!(printed.as_bytes() == read("listing"), "{name}");
        }
        let sheet = std::fs::read(format!("{folder}/example.sheet")).unwrap();
        assert_eq!(sheet, example().concat().as_bytes());
    }

    #[test]
    fn fields() {
        let value = |text: &str| number(text.as_bytes(), false).map(double);
        assert_eq!(value("           0"), Some(0.0));
        assert_eq!(value("000000000012"), Some(12.0));
        assert_eq!(value("99999.999999"), Some(99999.999999));
        assert_eq!(value("         0.1"), Some(0.1));
        assert_eq!(value("999999999999"), Some(999999999999.0));
        assert_eq!(number(b"999999999999", true), Some(999999999999));
        for wrong in [
            "            ",
            "           .",
            "          .5",
            "          5.",
            "         5. ",
            "          5 ",
            "         5 5",
            "   1.0000000",
            "       1.1.1",
            "          +5",
            "          -5",
            "         1e3",
            "         1,5",
            "         inf",
            "\t          5",
            "          \u{e9}",
        ] {
            assert_eq!(number(wrong.as_bytes(), false), None, "{wrong:?}");
        }
        assert_eq!(number(b"         1.0", true), None);
        assert_eq!(number(b"          \xff5", false), None);
    }

    #[test]
    fn forms_and_order() {
        let [t, o] = [0, 1].map(|i| example()[i].clone());
        refused_as(&[], 13, 1);
        refused_as(&example()[..1], 13, 2);
        refused_as(&example()[1..2], 13, 1);
        refused_as(&[t.clone(), t.clone()], 13, 2);
        refused_as(&example()[1..], 13, 1);
        refused_as(&[t.clone(), o.clone()], 1, 0);
        refused_as(&with(4, t.clone()), 13, 4);
        refused_as(&with(6, o.clone()), 13, 6);
        refused_as(&with(6, station()), 13, 6);
        // No station, no cable: the order is right.
        refused_as(&[&example()[..2], &example()[4..]].concat(), 1, 0);
        refused_as(&[&example()[..4], &example()[5..]].concat(), 2, 0);
        // 12 before 13 in one line, and the first line before a later one.
        refused_as(&with(6, "T\n".to_string()), 12, 6);
        refused_as(&[o, "\n".to_string()], 13, 1);
        refused_as(&["\n".to_string(), t], 12, 1);
        for wrong in ["\n", "Z\n", "S\n", "s\n", " \n", "\r\n"] {
            refused_as(&with(3, wrong.to_string()), 12, 3);
        }
        refused_as(&with(6, example()[5].replace('\n', "")), 12, 6);
        refused_as(&with(6, example()[5].replace('\n', "\r\n")), 12, 6);
        refused_as(&with(6, example()[5].replace('\n', " \n")), 12, 6);
        let mut rest = example();
        rest.push("B".to_string());
        refused_as(&rest, 12, 7);
    }

    #[test]
    fn whole_numbers() {
        for (line, whole) in [(1, 0..0), (2, 2..4), (3, 0..3), (5, 0..3), (6, 0..3)] {
            let fields = (example()[line - 1].len() - 2) / WIDTH;
            for field in 0..fields {
                let lines = with_field(line, field, "1.0");
                let is_12 = printed(&lines).starts_with("X  12");
                assert_eq!(is_12, whole.contains(&field), "{line} {field}");
            }
        }
    }

    #[test]
    fn refusals_and_their_lines() {
        refused_as(&with_field(1, 0, "1000000.0001"), 4, 1);
        refused_as(&with_field(1, 1, "100000.00001"), 4, 1);
        // 10,000,000 steps of 10 µs.
        let mut many = with_field(1, 1, "100000");
        many[0] = line_of('T', &["10", "100000"]);
        refused_as(&many, 5, 0);
        refused_as(&with_field(2, 0, "1000000.0001"), 9, 2);
        refused_as(&with_field(2, 2, "1"), 9, 2);
        refused_as(&with_field(2, 3, "11"), 9, 2);
        for (field, text) in [(0, "4"), (1, "1"), (2, "65536"), (3, "0.999999")] {
            refused_as(&with_field(4, field, text), 6, 4);
        }
        refused_as(&with_field(5, 2, "65536"), 7, 5);
        refused_as(&with_field(5, 6, "10000.000001"), 7, 5);
        for (field, text) in [(2, "3"), (4, "0.000001"), (5, "1000.000001")] {
            refused_as(&with_field(6, field, text), 8, 6);
        }
        refused_as(&with_field(4, 4, "20000"), 10, 0);
        let lines = |stations, cables, breakers| {
            let mut lines = example()[..2].to_vec();
            lines.extend(vec![station(); stations]);
            lines.extend(vec![example()[4].clone(); cables]);
            lines.extend(vec![example()[5].clone(); breakers]);
            lines
        };
        assert!(printed(&lines(32, 64, 32)).ends_with("E         192         192\n"));
        // More lines than there is room for, which are looked at all the same.
        for (stations, cables, breakers) in [(33, 1, 1), (1, 65, 1), (1, 1, 33), (0, 0, 33)] {
            let mut lines = lines(stations, cables, breakers);
            refused_as(&lines, 3, 0);
            lines[0] = line_of('T', &["1000000.0001", "0"]);
            refused_as(&lines, 3, 0);
            lines.push("\n".to_string());
            refused_as(&lines, 12, lines.len() as u64);
        }
    }
}
