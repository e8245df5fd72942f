//! SCHEDULE.md: reading a schedule, running it, and the listing.

use crate::frames::read_entry;
use crate::rules::{Last, LastLetter, Rule, Third, ThirdLetter};
use crate::shed::{conduct, Buffers, Refusal, Shed, Stand, Step};
use std::fmt::Write;

pub const LONGEST: usize = 65536;
pub const POOL: usize = 256;
pub const BOOK: usize = 1024;

#[derive(Clone, Copy, PartialEq, Eq, Debug)]
pub enum RuleName {
    Third,
    Last,
}

#[derive(Clone, PartialEq, Eq, Debug)]
pub struct Schedule {
    pub rule: RuleName,
    pub values: Vec<u16>,
    pub steps: Vec<Step>,
}

#[derive(Clone, Copy, PartialEq, Eq, Debug)]
pub enum Fault {
    TooLong,
    WrongRule,
    WrongValues,
    WrongStep(usize),
    Unfinished(usize),
}

impl Fault {
    pub fn number(self) -> usize {
        match self {
            Fault::TooLong => 16,
            Fault::WrongRule => 17,
            Fault::WrongValues => 18,
            Fault::WrongStep(_) => 19,
            Fault::Unfinished(_) => 20,
        }
    }

    pub fn line(self) -> usize {
        match self {
            Fault::TooLong => 0,
            Fault::WrongRule => 1,
            Fault::WrongValues => 2,
            Fault::WrongStep(line) | Fault::Unfinished(line) => line,
        }
    }
}

/// number = "0" | nonzero-digit { digit }, at most 65535
fn number(text: &[u8]) -> Option<u16> {
    if text.is_empty() || (text[0] == b'0' && text.len() > 1) {
        return None;
    }
    let mut value = 0u32;
    for byte in text {
        if !byte.is_ascii_digit() {
            return None;
        }
        value = value * 10 + (byte - b'0') as u32;
        if value > 65535 {
            return None;
        }
    }
    Some(value as u16)
}

fn rule_line(line: &[u8]) -> Option<RuleName> {
    match line {
        b"rule third" => Some(RuleName::Third),
        b"rule last" => Some(RuleName::Last),
        _ => None,
    }
}

fn values_line(line: &[u8]) -> Option<Vec<u16>> {
    let numbers = line.strip_prefix(b"values ")?;
    let values: Option<Vec<u16>> = numbers.split(|byte| *byte == b' ').map(number).collect();
    values.filter(|values| values.len() <= 16)
}

fn step_line(line: &[u8]) -> Option<Step> {
    if line.len() < 3 || line[1] != b' ' {
        return None;
    }
    let number = number(&line[2..])? as usize;
    match line[0] {
        b's' => Some(Step::Send(number)),
        b'd' => Some(Step::Deliver(number)),
        b'x' => Some(Step::Drop(number)),
        b'r' => Some(Step::Repeat(number)),
        b't' => Some(Step::Turn(number)),
        b'c' => Some(Step::Crash(number)),
        _ => None,
    }
}

pub fn read(text: &[u8]) -> Result<Schedule, Fault> {
    if text.len() > LONGEST {
        return Err(Fault::TooLong);
    }
    // What ends in 0x0A is a finished line; bytes after the last 0x0A are the unfinished line.
    let mut finished: Vec<&[u8]> = text.split(|byte| *byte == b'\n').collect();
    let rest = finished.pop().unwrap();
    let mut schedule = Schedule { rule: RuleName::Third, values: Vec::new(), steps: Vec::new() };
    for (i, line) in finished.iter().enumerate() {
        match i + 1 {
            1 => schedule.rule = rule_line(line).ok_or(Fault::WrongRule)?,
            2 => schedule.values = values_line(line).ok_or(Fault::WrongValues)?,
            number => schedule.steps.push(step_line(line).ok_or(Fault::WrongStep(number))?),
        }
    }
    if !rest.is_empty() || finished.len() < 3 {
        return Err(Fault::Unfinished(finished.len() + 1));
    }
    Ok(schedule)
}

/// The text of a schedule; reading is its inverse.
pub fn write(schedule: &Schedule) -> Vec<u8> {
    let mut text = String::new();
    text.push_str(match schedule.rule {
        RuleName::Third => "rule third\n",
        RuleName::Last => "rule last\n",
    });
    text.push_str("values");
    for value in &schedule.values {
        write!(text, " {value}").unwrap();
    }
    text.push('\n');
    for step in &schedule.steps {
        let (letter, number) = match step {
            Step::Send(number) => ('s', number),
            Step::Deliver(number) => ('d', number),
            Step::Drop(number) => ('x', number),
            Step::Repeat(number) => ('r', number),
            Step::Turn(number) => ('t', number),
            Step::Crash(number) => ('c', number),
        };
        writeln!(text, "{letter} {number}").unwrap();
    }
    text.into_bytes()
}

/// The reception of a station by the book's entries, in hundredths.
pub fn reception(n: usize, entries: &[u64], station: usize) -> usize {
    let mut turns = 0;
    let mut heard = 0;
    for word in entries {
        let entry = read_entry(*word);
        if entry.station == station {
            turns += 1;
            heard += entry.heard.size();
        }
    }
    if turns == 0 {
        0
    } else {
        100 * heard / (n * turns)
    }
}

fn listing_of<R: Rule>(
    rule: &R,
    b: &Buffers<R>,
    shed: &Shed,
    outcomes: &[Option<Refusal>],
) -> String {
    let mut text = String::new();
    for (i, outcome) in outcomes.iter().enumerate() {
        if let Some(refusal) = outcome {
            writeln!(text, "line {} refused {}", i + 3, refusal.number()).unwrap();
        }
    }
    for p in 0..shed.n {
        let sight = shed.look(rule, b, p).unwrap();
        let stand = if sight.stand == Stand::Down { "down" } else { "up" };
        let air = reception(shed.n, &b.book[..shed.e], p);
        match sight.hull {
            Some(hull) => writeln!(text, "station {p} {stand} round {} hull {hull} air {air}", sight.round).unwrap(),
            None => writeln!(text, "station {p} {stand} round {} hull none air {air}", sight.round).unwrap(),
        }
    }
    writeln!(text, "book {}", shed.e).unwrap();
    text
}

/// Runs a schedule of a rule on a new shed and gives what `see` makes of it.
pub fn run_with<R: Rule, T>(
    rule: &R,
    blank: R::Letter,
    schedule: &Schedule,
    see: impl Fn(&R, &Buffers<R>, &Shed, &[Option<Refusal>]) -> T,
) -> T {
    let mut states = vec![rule.first(1, 0, 0); 16];
    let mut letters = vec![blank; 272];
    let mut pool = vec![0; POOL];
    let mut book = vec![0; BOOK];
    let mut b = Buffers { states: &mut states, letters: &mut letters, pool: &mut pool, book: &mut book };
    let (shed, outcomes) = conduct(rule, &mut b, &schedule.values, &schedule.steps).expect("opening is accepted");
    see(rule, &b, &shed, &outcomes)
}

/// What the program prints for a text.
pub fn listing(text: &[u8]) -> String {
    match read(text) {
        Err(fault) => format!("fault {} line {}\n", fault.number(), fault.line()),
        Ok(schedule) => match schedule.rule {
            RuleName::Third => run_with(&Third, ThirdLetter { value: 0 }, &schedule, listing_of),
            RuleName::Last => run_with(&Last, LastLetter { value: 0, stamp: 0 }, &schedule, listing_of),
        },
    }
}

#[cfg(test)]
mod tests {
    use super::*;

    #[test]
    fn faults() {
        let seventeen = format!("rule third\nvalues{}\ns 0\n", " 1".repeat(17));
        let long = "x".repeat(65537);
        for (text, printed) in [
            ("", "fault 20 line 1"),
            ("\n", "fault 17 line 1"),
            ("rule third", "fault 20 line 1"),
            ("nonsense", "fault 20 line 1"),
            ("rule third\r\n", "fault 17 line 1"),
            ("rule Third\nvalues 1\ns 0\n", "fault 17 line 1"),
            ("rule third\n", "fault 20 line 2"),
            ("rule third\nvalues 1 2", "fault 20 line 2"),
            ("rule last\nvalues\ns 0\n", "fault 18 line 2"),
            ("rule third\nvalues 1  2\ns 0\n", "fault 18 line 2"),
            ("rule last\nvalues 65536\nd", "fault 18 line 2"),
            ("rule third\nvalues 65536\n", "fault 18 line 2"),
            (&seventeen, "fault 18 line 2"),
            ("rule third\nvalues 1 2\n", "fault 20 line 3"),
            ("rule third\nvalues 1 2\ns", "fault 20 line 3"),
            ("rule third\nvalues 1 2\ns 0\nd 00\n", "fault 19 line 4"),
            ("rule third\nvalues 1 2\ns 0\nd 65536\n", "fault 19 line 4"),
            ("rule third\nvalues 1 2\ns 0\n\n", "fault 19 line 4"),
            ("rule last\nvalues 1\ns 0\ns 01\nd", "fault 19 line 4"),
            ("rule third\nvalues 1 2\ns 0\nq 0", "fault 20 line 4"),
            (&long, "fault 16 line 0"),
        ] {
            assert_eq!(listing(text.as_bytes()), format!("{printed}\n"), "{text:?}");
        }
    }

    #[test]
    fn the_printed_example() {
        let input = "rule third\nvalues 9 7\ns 0\ns 1\nd 0\nd 2\nt 0\ns 0\nd 3\nd 0\nt 1\ns 1\nd 2\nd 3\nt 0\nd 2\nt 1\nd 0\n";
        let output = "line 10 refused 12\nline 18 refused 11\nstation 0 up round 2 hull 7 air 100\n\
                      station 1 up round 2 hull 7 air 50\nbook 4\n";
        assert_eq!(listing(input.as_bytes()), output);
        let schedule = read(input.as_bytes()).unwrap();
        assert_eq!(write(&schedule), input.as_bytes());
        run_with(&Third, ThirdLetter { value: 0 }, &schedule, |_, b, shed, _| {
            assert_eq!(shed.c, 2);
            assert_eq!(b.book[..5], [0x0000C00000000000, 0x1000000000000000, 0x0001C00000000000, 0x1001C00000000000, 0]);
        });
    }

    #[test]
    fn two_more_examples() {
        let alone = format!("rule last\nvalues 5\n{}", "s 0\nd 0\nt 0\n".repeat(4));
        assert_eq!(listing(alone.as_bytes()), "station 0 up round 4 hull 5 air 100\nbook 4\n");
        let crash = "rule third\nvalues 4 4 8\nc 2\ns 0\nr 0\nd 0\nd 2\nx 0\nx 0\nt 0\ns 2\nt 3\n";
        assert_eq!(
            listing(crash.as_bytes()),
            "line 7 refused 9\nline 11 refused 9\nline 12 refused 6\nstation 0 up round 1 hull none air 33\n\
             station 1 up round 0 hull none air 0\nstation 2 down round 0 hull none air 0\nbook 1\n"
        );
    }
}
