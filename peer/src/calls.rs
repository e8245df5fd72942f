//! The requests that `crates/peer_bridge` takes, and the peer's own replies to them. What each request reads is what the bridge
//! says; what it answers and leaves is the peer's own, by CALLS.md, RULES.md and RECOUNT.md.

use crate::recount::{recount, RecountRefusal};
use crate::rules::{Last, Rule, Third};
use crate::shed::{Bench, Buffers, Refusal, Shed, Sight};

/// The cells of the buffers of states and of letters.
pub const STATES: usize = 17;
pub const LETTERS: usize = 273;

/// The kinds of request. The first eight are the shed's calls; any number from 12 on writes a word into the pool.
pub const OPEN: u8 = 0;
pub const SEND: u8 = 1;
pub const DELIVER: u8 = 2;
pub const DROP: u8 = 3;
pub const REPEAT: u8 = 4;
pub const TURN: u8 = 5;
pub const CRASH: u8 = 6;
pub const LOOK: u8 = 7;
pub const RECOUNT: u8 = 8;
pub const LETTER: u8 = 9;
pub const HULL: u8 = 10;
pub const CELL: u8 = 11;
pub const WRITE: u8 = 12;

/// The kinds by their names.
pub const KINDS: [&str; 13] =
    ["open", "send", "deliver", "drop", "repeat", "turn", "crash", "look", "recount", "letter", "hull", "cell", "write"];

#[repr(C)]
#[derive(Clone, Copy, PartialEq, Eq, Debug, Default)]
pub struct Request {
    pub kind: u8,
    /// A number of opening values, a station, a place in the pool, or a cell.
    pub at: usize,
    /// Of whom a letter is asked for, with the state in the cell.
    pub n: usize,
    pub station: usize,
    /// Also the round of recount.
    pub round: u16,
    pub receiver: usize,
    /// What is written.
    pub word: u64,
    /// How many cells of each buffer are lent; to recount also as many cells of the second buffer as of letters, and of the
    /// row as of the pool, 17 at most.
    pub states: usize,
    pub letters: usize,
    pub pool: usize,
    pub book: usize,
}

/// A refusal's number and 0, or 0 and the answer.
#[repr(C)]
#[derive(Clone, Copy, PartialEq, Eq, Debug, Default)]
pub struct Reply {
    pub refusal: u8,
    pub answer: usize,
}

impl Reply {
    fn of(answer: Result<usize, u8>) -> Reply {
        match answer {
            Ok(answer) => Reply { refusal: 0, answer },
            Err(refusal) => Reply { refusal, answer: 0 },
        }
    }
}

/// 0 for none, and else one more than the number.
fn or_none(number: Option<u64>) -> usize {
    number.map_or(0, |number| number as usize + 1)
}

fn sight_number(seen: Sight) -> usize {
    (or_none(seen.hull.map(u64::from)) * 65536 + seen.round as usize) * 3 + seen.stand as usize
}

fn answer<R: Rule>(rule: &R, shed: &mut Shed, lent: &mut Buffers<R>, values: &[u16], q: &Request) -> Result<usize, u8> {
    let k = q.at;
    let answer = match q.kind {
        OPEN => shed.open(rule, lent, &values[..k.min(values.len())]),
        SEND => shed.send(rule, lent, k),
        DELIVER => shed.deliver(rule, lent, k).map(|fate| fate as usize),
        DROP => shed.drop(rule, lent, k),
        REPEAT => shed.repeat(rule, lent, k),
        TURN => shed.turn(rule, lent, k).map(usize::from),
        CRASH => shed.crash(rule, lent, k),
        LOOK => shed.look(rule, lent, k).map(sight_number),
        RECOUNT => {
            let mut second = vec![rule.first(1, 0, 0); q.letters.min(STATES)];
            let mut row = vec![blank(rule); q.pool.min(STATES)];
            let answer = recount(rule, values, lent.book, q.round, lent.states, &mut second, &mut row);
            return answer.map(usize::from).map_err(RecountRefusal::number);
        }
        LETTER => {
            let letter = lent.states.get(k).and_then(|state| rule.letter(q.n, q.station, q.round, *state, q.receiver));
            Ok(or_none(letter.map(|letter| rule.pack(letter))))
        }
        HULL => Ok(or_none(lent.states.get(k).and_then(|state| rule.hull(*state)).map(u64::from))),
        CELL => Ok(or_none(lent.letters.get(k).map(|letter| rule.pack(*letter)))),
        _ => {
            if let Some(word) = lent.pool.get_mut(k) {
                *word = q.word;
            }
            Ok(0)
        }
    };
    answer.map_err(Refusal::number)
}

/// What lies in each cell for letters at first.
fn blank<R: Rule>(rule: &R) -> R::Letter {
    rule.unpack(0).expect("0 is a letter of both rules")
}

impl<R: Rule> Bench<R> {
    /// A new shed; a first state lies in each cell for states.
    pub fn new(rule: R, pool: &[u64], book: &[u64]) -> Bench<R> {
        let (state, letter) = (rule.first(1, 0, 0), blank(&rule));
        let (states, letters) = (vec![state; STATES], vec![letter; LETTERS]);
        Bench { rule, shed: Shed::new(), states, letters, pool: pool.to_vec(), book: book.to_vec() }
    }

    /// Makes a request with the cells that it is lent.
    pub fn make(&mut self, values: &[u16], q: &Request) -> Reply {
        let mut lent = Buffers {
            states: &mut self.states[..q.states.min(STATES)],
            letters: &mut self.letters[..q.letters.min(LETTERS)],
            pool: part(&mut self.pool, q.pool),
            book: part(&mut self.book, q.book),
        };
        Reply::of(answer(&self.rule, &mut self.shed, &mut lent, values, q))
    }
}

fn part(words: &mut [u64], length: usize) -> &mut [u64] {
    let length = length.min(words.len());
    &mut words[..length]
}

/// What one side does: the rule's number (0 for third, any other for last), the opening values, the requests, their replies as
/// far as there are cells, the pool and the book.
pub type Side = fn(u8, &[u16], &[Request], &mut [Reply], &mut [u64], &mut [u64]);

/// The peer's side.
pub fn run(rule: u8, values: &[u16], requests: &[Request], replies: &mut [Reply], pool: &mut [u64], book: &mut [u64]) {
    match rule {
        0 => run_by(Third, values, requests, replies, pool, book),
        _ => run_by(Last, values, requests, replies, pool, book),
    }
}

fn run_by<R: Rule>(rule: R, values: &[u16], requests: &[Request], replies: &mut [Reply], pool: &mut [u64], book: &mut [u64]) {
    let mut bench = Bench::new(rule, pool, book);
    for (i, request) in requests.iter().enumerate() {
        let reply = bench.make(values, request);
        if let Some(cell) = replies.get_mut(i) {
            *cell = reply;
        }
    }
    pool.copy_from_slice(&bench.pool);
    book.copy_from_slice(&bench.book);
}
