//! A seeded maker of schedules for comparing two programs. No document describes it; it only has to
//! reach every corner of SCHEDULE.md and CALLS.md often enough (`generate` prints what it reached).

use crate::frames::read_frame;
use crate::rules::{Last, LastLetter, Rule, Third, ThirdLetter};
use crate::schedule::{self, RuleName, Schedule, BOOK, LONGEST, POOL};
use crate::shed::{Bench, Buffers, Shed, Stand, Step};

/// splitmix64
pub struct Rng(pub u64);

impl Rng {
    pub fn of(seed: u64, index: u64) -> Rng {
        let mut rng = Rng(seed);
        let start = rng.word();
        Rng(start ^ index.wrapping_mul(0xA0761D6478BD642F))
    }

    pub fn word(&mut self) -> u64 {
        self.0 = self.0.wrapping_add(0x9E3779B97F4A7C15);
        let mut z = self.0;
        z = (z ^ (z >> 30)).wrapping_mul(0xBF58476D1CE4E5B9);
        z = (z ^ (z >> 27)).wrapping_mul(0x94D049BB133111EB);
        z ^ (z >> 31)
    }

    /// A number below `limit`; 0 if there is none.
    pub fn below(&mut self, limit: usize) -> usize {
        if limit == 0 {
            return 0;
        }
        (self.word() % limit as u64) as usize
    }

    pub fn from(&mut self, low: usize, high: usize) -> usize {
        low + self.below(high - low + 1)
    }

    pub fn percent(&mut self, part: usize) -> bool {
        self.below(100) < part
    }

    pub fn pick<'a, T>(&mut self, list: &'a [T]) -> &'a T {
        &list[self.below(list.len())]
    }
}

#[derive(Clone, Copy, PartialEq, Eq, Debug)]
pub enum Kind {
    Lively,
    Weighted,
    FillPool,
    FillBook,
    AnySteps,
    Sized,
    Damaged,
}

pub const KINDS: [Kind; 7] =
    [Kind::Lively, Kind::Weighted, Kind::FillPool, Kind::FillBook, Kind::AnySteps, Kind::Sized, Kind::Damaged];

fn stations(rng: &mut Rng) -> usize {
    if rng.percent(50) {
        rng.from(1, 5)
    } else {
        rng.from(1, 16)
    }
}

fn values(rng: &mut Rng, n: usize) -> Vec<u16> {
    let style = rng.below(5);
    (0..n)
        .map(|p| match style {
            0 => 7,
            1 => rng.from(1, 3) as u16,
            2 => *rng.pick(&[0, 9, 10, 65535, 65534, 255, 256, 32768]),
            3 => (100 - p) as u16,
            _ => rng.word() as u16,
        })
        .collect()
}

fn any_number(rng: &mut Rng, n: usize, c: usize) -> usize {
    match rng.below(10) {
        0 => n,
        1 => c,
        2 => c + 1,
        3 => 65535,
        4 => *rng.pick(&[15, 16, 17, 255, 256, 257, 1023, 1024, 4095, 4096, 65534]),
        5 => rng.below(65536),
        6 | 7 => rng.below(c.max(1)),
        _ => rng.below(n),
    }
}

pub fn any_step(rng: &mut Rng, n: usize, c: usize) -> Step {
    let number = any_number(rng, n, c).min(65535);
    match rng.below(100) {
        0..=24 => Step::Send(number),
        25..=54 => Step::Deliver(number),
        55..=64 => Step::Drop(number),
        65..=74 => Step::Repeat(number),
        75..=96 => Step::Turn(number),
        _ => Step::Crash(number),
    }
}

fn step_length(step: Step) -> usize {
    let (Step::Send(k) | Step::Deliver(k) | Step::Drop(k) | Step::Repeat(k) | Step::Turn(k) | Step::Crash(k)) = step;
    3 + k.to_string().len()
}

/// A shed of the program's sizes that the maker plays along on, so that it knows what would happen.
pub struct Along<R: Rule> {
    pub bench: Bench<R>,
    pub steps: Vec<Step>,
    /// How many bytes of steps there may be.
    pub room: usize,
}

impl<R: Rule> Along<R> {
    fn new(rule: R, blank: R::Letter, values: &[u16], room: usize) -> Along<R> {
        let state = rule.first(1, 0, 0);
        let bench = Bench {
            rule,
            shed: Shed::new(),
            states: vec![state; 16],
            letters: vec![blank; 272],
            pool: vec![0; POOL],
            book: vec![0; BOOK],
        };
        let mut along = Along { bench, steps: Vec::new(), room };
        let mut b = Buffers {
            states: &mut along.bench.states,
            letters: &mut along.bench.letters,
            pool: &mut along.bench.pool,
            book: &mut along.bench.book,
        };
        along.bench.shed.open(&along.bench.rule, &mut b, values).unwrap();
        along
    }

    fn done(&self) -> bool {
        self.room < 8
    }

    fn make(&mut self, step: Step) {
        let length = step_length(step);
        if length > self.room {
            self.room = 0;
            return;
        }
        self.room -= length;
        let mut b = Buffers {
            states: &mut self.bench.states,
            letters: &mut self.bench.letters,
            pool: &mut self.bench.pool,
            book: &mut self.bench.book,
        };
        self.bench.shed.step(&self.bench.rule, &mut b, step);
        self.steps.push(step);
    }

    fn receiver_takes(&self, place: usize) -> bool {
        match read_frame(&self.bench.rule, self.bench.shed.n, self.bench.pool[place]) {
            Some(frame) => {
                let record = &self.bench.shed.records[frame.receiver];
                record.stand == Stand::Listening && record.hold.is_none()
            }
            None => false,
        }
    }

    /// The frame at the place is for a round that its receiver has passed, or its receiver is down.
    fn is_old(&self, place: usize) -> bool {
        match read_frame(&self.bench.rule, self.bench.shed.n, self.bench.pool[place]) {
            Some(frame) => {
                let record = &self.bench.shed.records[frame.receiver];
                record.stand == Stand::Down || frame.round < record.round
            }
            None => true,
        }
    }

    fn stands(&self, stand: Stand) -> Vec<usize> {
        (0..self.bench.shed.n).filter(|p| self.bench.shed.records[*p].stand == stand).collect()
    }

    /// Rounds that mostly go well, with losses, copies, stations that lag, crashes and noise.
    fn lively(&mut self, rng: &mut Rng) {
        let loss = *rng.pick(&[0, 0, 2, 5, 15, 35]);
        let copy = *rng.pick(&[0, 0, 3, 10]);
        let noise = *rng.pick(&[0, 0, 2, 10]);
        let crash = *rng.pick(&[0, 0, 0, 2, 10]);
        let lag = *rng.pick(&[0, 0, 10, 30, 60]);
        let hasty = *rng.pick(&[0, 0, 1, 5]);
        let stubborn = *rng.pick(&[0, 0, 3, 20]);
        let mut idle = 0;
        while !self.done() && idle < 40 {
            idle += 1;
            let n = self.bench.shed.n;
            if rng.percent(crash) {
                self.make(Step::Crash(rng.below(n)));
            }
            let mut fresh = self.stands(Stand::Fresh);
            while !fresh.is_empty() {
                let p = fresh.swap_remove(rng.below(fresh.len()));
                if !rng.percent(lag / 2) {
                    self.make(Step::Send(p));
                    idle = 0;
                }
            }
            let mut tries = 3 * self.bench.shed.c + 4;
            while tries > 0 && self.bench.shed.c > 0 && !self.done() {
                tries -= 1;
                if rng.percent(hasty) {
                    break;
                }
                if rng.percent(noise) {
                    self.make(any_step(rng, n, self.bench.shed.c));
                    continue;
                }
                let place = rng.below(self.bench.shed.c);
                if self.is_old(place) && rng.percent(70) {
                    self.make(Step::Drop(place));
                } else if rng.percent(loss) {
                    self.make(Step::Drop(place));
                } else if rng.percent(copy) {
                    self.make(Step::Repeat(place));
                } else if self.receiver_takes(place) || rng.percent(stubborn) {
                    self.make(Step::Deliver(place));
                }
            }
            let listening = self.stands(Stand::Listening);
            for p in listening {
                if !rng.percent(lag) {
                    self.make(Step::Turn(p));
                    idle = 0;
                }
            }
        }
    }

    /// Steps drawn by weights.
    fn weighted(&mut self, rng: &mut Rng) {
        let weights: Vec<usize> = (0..7).map(|_| *rng.pick(&[0, 1, 3, 10, 30])).collect();
        let weights = [weights[0] + 5, weights[1] + 10, weights[2] / 3, weights[3] / 3, weights[4] + 2, weights[5] / 30, weights[6] / 3];
        let total: usize = weights.iter().sum();
        while !self.done() {
            let (n, c) = (self.bench.shed.n, self.bench.shed.c);
            let mut draw = rng.below(total);
            let mut action = 0;
            while draw >= weights[action] {
                draw -= weights[action];
                action += 1;
            }
            let fresh = self.stands(Stand::Fresh);
            let listening = self.stands(Stand::Listening);
            let step = match action {
                0 if !fresh.is_empty() => Step::Send(*rng.pick(&fresh)),
                0 => Step::Send(rng.below(n)),
                1 => Step::Deliver(rng.below(c)),
                2 => Step::Drop(rng.below(c)),
                3 => Step::Repeat(rng.below(c)),
                4 if !listening.is_empty() => Step::Turn(*rng.pick(&listening)),
                4 => Step::Turn(rng.below(n)),
                5 => Step::Crash(rng.below(n)),
                _ => any_step(rng, n, c),
            };
            self.make(step);
        }
    }

    /// Fills the pool by sends and copies, then goes on with it full or nearly full.
    fn fill_pool(&mut self, rng: &mut Rng) {
        let n = self.bench.shed.n;
        let mut tries = 2000;
        while self.bench.shed.c < POOL && !self.done() && tries > 0 {
            tries -= 1;
            let p = rng.below(n);
            match self.bench.shed.records[p].stand {
                Stand::Fresh => self.make(Step::Send(p)),
                _ if rng.percent(40) => self.make(Step::Turn(p)),
                _ if self.bench.shed.c > 0 && rng.percent(60) => self.make(Step::Repeat(rng.below(self.bench.shed.c))),
                _ => self.make(any_step(rng, n, self.bench.shed.c)),
            }
        }
        let more = rng.from(10, 200);
        for _ in 0..more {
            let c = self.bench.shed.c;
            let step = match rng.below(10) {
                0 | 1 => Step::Repeat(rng.below(c)),
                2 | 3 => Step::Send(rng.below(n)),
                4 => Step::Turn(rng.below(n)),
                5 => Step::Drop(rng.below(c)),
                6 | 7 => Step::Deliver(rng.below(c)),
                8 => Step::Deliver(c.saturating_sub(1)),
                _ => any_step(rng, n, c),
            };
            self.make(step);
        }
        if rng.percent(50) {
            self.lively(rng);
        }
    }

    /// Turns until the book is full, and then some.
    fn fill_book(&mut self, rng: &mut Rng) {
        let n = self.bench.shed.n;
        let alone = rng.below(n);
        let only_one = rng.percent(50);
        while self.bench.shed.e < BOOK && !self.done() {
            for p in 0..n {
                if only_one && p != alone && !rng.percent(1) {
                    continue;
                }
                self.make(Step::Send(p));
                while self.bench.shed.c > rng.below(3) * n && !self.done() {
                    let place = rng.below(self.bench.shed.c);
                    if self.receiver_takes(place) && rng.percent(80) {
                        self.make(Step::Deliver(place));
                    } else {
                        self.make(Step::Drop(place));
                    }
                }
                self.make(Step::Turn(p));
            }
        }
        for _ in 0..rng.from(1, 60) {
            let step = match rng.below(4) {
                0 => Step::Send(rng.below(n)),
                1 | 2 => Step::Turn(rng.below(n)),
                _ => any_step(rng, n, self.bench.shed.c),
            };
            self.make(step);
        }
    }
}

fn play<R: Rule>(rng: &mut Rng, rule: R, blank: R::Letter, kind: Kind, values: &[u16], room: usize) -> Vec<Step> {
    let mut along = Along::new(rule, blank, values, room);
    match kind {
        Kind::Weighted => along.weighted(rng),
        Kind::FillPool => along.fill_pool(rng),
        Kind::FillBook => along.fill_book(rng),
        _ => along.lively(rng),
    }
    if along.steps.is_empty() {
        along.steps.push(Step::Send(0));
    }
    along.steps
}

fn schedule_of(rng: &mut Rng, kind: Kind, rule: RuleName, values: Vec<u16>, room: usize) -> Schedule {
    let steps = match rule {
        RuleName::Third => play(rng, Third, ThirdLetter { value: 0 }, kind, &values, room),
        RuleName::Last => play(rng, Last, LastLetter { value: 0, stamp: 0 }, kind, &values, room),
    };
    Schedule { rule, values, steps }
}

fn rule_name(rng: &mut Rng) -> RuleName {
    if rng.percent(50) {
        RuleName::Third
    } else {
        RuleName::Last
    }
}

fn room(rng: &mut Rng) -> usize {
    match rng.below(100) {
        0..=29 => rng.from(8, 200),
        30..=79 => rng.from(200, 2500),
        80..=95 => rng.from(2500, 9000),
        _ => rng.from(9000, 65000),
    }
}

fn head(rule: RuleName, values: &[u16]) -> Vec<u8> {
    schedule::write(&Schedule { rule, values: values.to_vec(), steps: Vec::new() })
}

/// A schedule whose text has exactly `length` bytes (all lines right).
pub fn exact(rng: &mut Rng, rule: RuleName, values: Vec<u16>, length: usize) -> Vec<u8> {
    let start = head(rule, &values).len();
    let kind = if rng.percent(70) { Kind::Lively } else { Kind::Weighted };
    let made = schedule_of(rng, kind, rule, values, length - start - 24);
    let mut text = schedule::write(&made);
    while text.len() < length {
        let left = length - text.len();
        let digits = match left {
            4..=8 => left - 3,
            9..=11 => 1,
            _ => rng.from(1, 5),
        };
        let number = match digits {
            1 => rng.below(10),
            2 => rng.from(10, 99),
            3 => rng.from(100, 999),
            4 => rng.from(1000, 9999),
            _ => rng.from(10000, 65535),
        };
        let letter = *rng.pick(b"sdxrtd");
        text.push(letter);
        text.extend(format!(" {number}\n").bytes());
    }
    assert_eq!(text.len(), length);
    text
}

fn damage(rng: &mut Rng, text: &mut Vec<u8>) {
    let place = rng.below(text.len() + 1);
    let line_starts: Vec<usize> =
        std::iter::once(0).chain(text.iter().enumerate().filter(|(_, b)| **b == b'\n').map(|(i, _)| i + 1)).collect();
    // Mostly among the first few lines and the last few.
    let line = if rng.percent(50) { rng.below(line_starts.len().min(5)) } else { rng.below(line_starts.len()) };
    let start = line_starts[line];
    let end = line_starts.get(line + 1).copied().unwrap_or(text.len());
    let blanks: Vec<usize> = (start..end).filter(|i| text[*i] == b' ').collect();
    let blank = if blanks.is_empty() { start } else { *rng.pick(&blanks) };
    let any = rng.word() as u8;
    match rng.below(32) {
        0 | 1 => text.truncate(place),
        2 if place < text.len() => text[place] = any,
        3 if place < text.len() => text[place] = *rng.pick(b" 0123456789sdxrtc\n\r\t"),
        4 => text.insert(place, any),
        5 => text.insert(place, *rng.pick(b" 09sdxrtc\n\r\t+-.#")),
        6 if place < text.len() => {
            text.remove(place);
        }
        7 if !blanks.is_empty() => text.insert(blank + 1, b'0'),
        8 => {
            let number = *rng.pick(&["65536", "65535", "65537", "70000", "99999", "100000", "655350", "18446744073709551616", "18446744073709551617", "4294967296", "00", "0", "01", "-1", "+1", "", "1e3", "0x1", "340282366920938463463374607431768211457"]);
            if !blanks.is_empty() {
                let mut stop = blank + 1;
                while stop < text.len() && text[stop] != b' ' && text[stop] != b'\n' {
                    stop += 1;
                }
                text.splice(blank + 1..stop, number.bytes());
            }
        }
        9 => text.insert(blank, b' '),
        10 if blank < text.len() => text[blank] = b'\t',
        11 if end > start => text.insert(end - 1, b'\r'),
        12 => {
            let crlf: Vec<u8> = text.iter().flat_map(|b| if *b == b'\n' { vec![b'\r', b'\n'] } else { vec![*b] }).collect();
            *text = crlf;
        }
        13 => {
            text.drain(start..end);
        }
        14 => {
            let first = line_starts.get(1).copied().unwrap_or(0);
            text.drain(..first);
        }
        15 => {
            let values: Vec<String> = (0..rng.from(15, 18)).map(|_| rng.below(65536).to_string()).collect();
            if line_starts.len() > 2 {
                let line = format!("values {}\n", values.join(" "));
                text.splice(line_starts[1]..line_starts[2], line.bytes());
            }
        }
        16 => text.clear(),
        17 => *text = vec![b'\n'; rng.from(1, 5)],
        18 => text.push(b'\n'),
        19 => {
            text.pop();
        }
        20 => text.insert(start, *rng.pick(&[0xFF, 0xC3, 0x80, 0x00, 0xEF])),
        21 => text.insert(place, *rng.pick(&[0xFF, 0xC3, 0x80, 0x00, 0xEF])),
        22 if start < text.len() => text[start] = text[start].to_ascii_uppercase(),
        23 if end > start => text.insert(end - 1, b' '),
        24 => text.insert(start, b' '),
        25 => {
            let line = *rng.pick(&["s", "s ", " 0", "s0", "s  0", "s 0 ", "s 0 1", "ss 0", "# s 0", "", "values 1", "rule last", "l 0", "o 0", "S 0", "s\t0", "s 0\r", "s -0", "s +0", "s 0x0", "c 00", "t 000000", "d 0\0"]);
            text.splice(start..end, format!("{line}\n").bytes());
        }
        26 => {
            let line = *rng.pick(&["rule", "rule ", "rule third ", " rule third", "rule  third", "rule last\r", "Rule last", "rule LAST", "rule lasts", "rule thir", "third", "rule\tlast", "rule third last", "rule 0"]);
            let first = line_starts.get(1).copied().unwrap_or(0);
            text.splice(..first, format!("{line}\n").bytes());
        }
        27 if line_starts.len() > 2 => {
            let line = *rng.pick(&["values", "values ", "values  1", "values 1 ", " values 1", "value 1", "values 1,2", "values 01", "values 65536", "values 65535", "values 1\t2", "values1", "Values 1", "values 1 2 3 4 5 6 7 8 9 10 11 12 13 14 15 16", "values 1 2 3 4 5 6 7 8 9 10 11 12 13 14 15 16 17", "values 0", "values 00", "values -1", "valuess 1", "values 1 65536", "values 99999999999999999999999 1"]);
            text.splice(line_starts[1]..line_starts[2], format!("{line}\n").bytes());
        }
        28 => {
            let keep = rng.below(line_starts.len().min(5));
            text.truncate(line_starts[keep]);
        }
        29 => {
            let long = rng.from(1, 300);
            let bytes: Vec<u8> = (0..long).map(|_| rng.word() as u8).collect();
            text.splice(place..place, bytes);
        }
        30 => text.extend((0..rng.from(1, 9)).map(|_| *rng.pick(b"sdxrtc 0123456789"))),
        _ => {
            let number = "9".repeat(rng.from(5, 400));
            text.splice(start..end, format!("s {number}\n").bytes());
        }
    }
}

/// The schedule of a seed and an index.
pub fn make(seed: u64, index: u64) -> (Kind, Vec<u8>) {
    let rng = &mut Rng::of(seed, index);
    let n = stations(rng);
    let opening = values(rng, n);
    let rule = rule_name(rng);
    let kind = match rng.below(200) {
        0..=79 => Kind::Lively,
        80..=109 => Kind::Weighted,
        110..=115 => Kind::FillPool,
        116..=119 => Kind::FillBook,
        120..=139 => Kind::AnySteps,
        140..=143 => Kind::Sized,
        _ => Kind::Damaged,
    };
    let text = match kind {
        Kind::Lively | Kind::Weighted => {
            let mut room = room(rng);
            if n > 5 && rng.percent(50) {
                // Many stations need more steps before anything is settled.
                room = room.max(n * n * rng.from(8, 40));
            }
            schedule::write(&schedule_of(rng, kind, rule, opening, room))
        }
        Kind::FillPool => {
            let room = rng.from(3000, 20000);
            schedule::write(&schedule_of(rng, kind, rule, opening, room))
        }
        Kind::FillBook => schedule::write(&schedule_of(rng, kind, rule, opening, 65000)),
        Kind::AnySteps => {
            let count = if rng.percent(90) { rng.from(1, 400) } else { rng.from(1, 7000) };
            let reach = *rng.pick(&[1, n, 20, 300]);
            let steps = (0..count).map(|_| any_step(rng, n, reach)).collect();
            schedule::write(&Schedule { rule, values: opening, steps })
        }
        Kind::Sized => {
            let length = *rng.pick(&[LONGEST, LONGEST, LONGEST + 1, LONGEST - 1, LONGEST + 2, 2 * LONGEST]);
            match rng.below(6) {
                0 => (0..length).map(|_| rng.word() as u8).collect(),
                1 => vec![*rng.pick(&[b'\n', b'x', 0, 0xFF]); length],
                2 => {
                    let mut text = exact(rng, rule, opening, length);
                    let place = rng.below(length);
                    text[place] = *rng.pick(b" 0\nq\r");
                    text
                }
                _ => exact(rng, rule, opening, length),
            }
        }
        Kind::Damaged => {
            let room = if rng.percent(95) { rng.from(8, 300) } else { rng.from(300, 5000) };
            let inner = if rng.percent(70) { Kind::Lively } else { Kind::Weighted };
            let mut text = schedule::write(&schedule_of(rng, inner, rule, opening, room));
            damage(rng, &mut text);
            while rng.percent(20) {
                damage(rng, &mut text);
            }
            text
        }
    };
    (kind, text)
}

/// A schedule of exactly 65,536 bytes on which much happens: 16 stations, all rounds go well. Last writes
/// few letters, so there frames are copied too, for the text to end at about the same time as the book.
pub fn longest(rule: RuleName) -> Vec<u8> {
    let values: Vec<u16> = (0..16).map(|p| 40000 + 111 * p).collect();
    let start = head(rule, &values).len();
    let room = LONGEST - start - 24;
    fn full<R: Rule>(rule: R, blank: R::Letter, values: &[u16], room: usize, copies: usize) -> Vec<Step> {
        let mut along = Along::new(rule, blank, values, room);
        while !along.done() {
            for p in 0..16 {
                along.make(Step::Send(p));
            }
            for k in 0..copies {
                along.make(Step::Repeat(k % 10));
            }
            while along.bench.shed.c > 0 && !along.done() {
                along.make(Step::Deliver(0));
            }
            for p in 0..16 {
                along.make(Step::Turn(p));
            }
        }
        along.steps
    }
    let steps = match rule {
        RuleName::Third => full(Third, ThirdLetter { value: 0 }, &values, room, 0),
        RuleName::Last => full(Last, LastLetter { value: 0, stamp: 0 }, &values, room, 96),
    };
    let mut text = schedule::write(&Schedule { rule, values, steps });
    while text.len() < LONGEST {
        let left = LONGEST - text.len();
        text.extend(if left == 4 || left >= 8 { &b"d 0\n"[..] } else { [&b""[..], b"d 10\n", b"d 100\n", b"d 1000\n"][left - 4] });
    }
    assert_eq!(text.len(), LONGEST);
    text
}

#[cfg(test)]
mod tests {
    use super::*;

    #[test]
    fn reading_is_the_inverse_of_writing() {
        for index in 0..3000 {
            let (_, text) = make(11, index);
            if let Ok(schedule) = schedule::read(&text) {
                assert_eq!(schedule::write(&schedule), text);
            }
        }
    }

    #[test]
    fn the_longest() {
        for rule in [RuleName::Third, RuleName::Last] {
            let text = longest(rule);
            assert_eq!(text.len(), LONGEST);
            assert!(schedule::read(&text).is_ok());
        }
    }
}
