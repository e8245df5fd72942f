//! A seeded maker of what is asked of both sides: lists of requests of a shed, and recounts, valid and damaged. No document
//! describes it; it only has to reach every corner often enough (`compare-calls` prints what it reached).

use crate::calls::*;
use crate::frames::{pack_frame, Frame};
use crate::making::Rng;
use crate::rules::{Last, LastLetter, Rule, Third, ThirdLetter};
use crate::shed::{Bench, Refusal, Stand};

/// The most opening values: more than a rule has stations, so that too many can be given.
const VALUES: usize = 20;

#[derive(Clone, Debug)]
pub struct Input {
    pub rule: u8,
    pub values: Vec<u16>,
    pub requests: Vec<Request>,
    pub pool: Vec<u64>,
    pub book: Vec<u64>,
}

/// All that one side replies and leaves, as numbers.
pub fn answer(side: Side, input: &Input) -> Vec<u64> {
    // One cell more than there are requests, which has to stay.
    let mut replies = vec![Reply { refusal: 99, answer: 99 }; input.requests.len() + 1];
    let (mut pool, mut book) = (input.pool.clone(), input.book.clone());
    side(input.rule, &input.values, &input.requests, &mut replies, &mut pool, &mut book);
    let mut told: Vec<u64> = replies.iter().flat_map(|reply| [reply.refusal as u64, reply.answer as u64]).collect();
    told.extend(pool);
    told.extend(book);
    told
}

const STAMPS: [u16; 10] = [0, 0, 1, 1, 2, 3, 1023, 1024, 1025, 2047];

fn value(rng: &mut Rng) -> u16 {
    match rng.below(8) {
        0 => rng.word() as u16,
        1 => *rng.pick(&[0, 255, 256, 32768, 65534, 65535]),
        _ => rng.from(1, 4) as u16,
    }
}

fn values(rng: &mut Rng, count: usize) -> Vec<u16> {
    (0..count).map(|_| value(rng)).collect()
}

fn count(rng: &mut Rng) -> usize {
    match rng.below(20) {
        0 => 0,
        1 => 17,
        2 => *rng.pick(&[18, 20, 255, 65536, usize::MAX]),
        3..=12 => rng.from(1, 5),
        _ => rng.from(1, 16),
    }
}

/// A station among n, mostly; else one past them.
fn station(rng: &mut Rng, n: usize) -> usize {
    match rng.below(12) {
        0 => n,
        1 => *rng.pick(&[15, 16, 17, 255, 256, 65536, usize::MAX]),
        _ => rng.below(n.min(16)),
    }
}

fn round(rng: &mut Rng) -> u16 {
    match rng.below(12) {
        0 | 1 => *rng.pick(&[4094, 4095, 4095, 4096, 4097, 65535]),
        2 => rng.below(4096) as u16,
        _ => rng.below(24) as u16,
    }
}

/// The length of a buffer for n stations: right, mostly.
fn about(rng: &mut Rng, n: usize) -> usize {
    match rng.below(16) {
        0 => n.saturating_sub(1).min(20),
        1 => 0,
        2 => 20,
        _ => n.min(18) + rng.below(3),
    }
}

/// A rule's number.
fn rule(rng: &mut Rng) -> u8 {
    match rng.below(40) {
        0 => 255,
        1..=19 => 0,
        _ => 1,
    }
}

/// What is asked of the state in a cell: its hull, and its letters in any round to any station. The rounds that tell most of
/// a state are those of the phase that the station leads.
fn ask_state(rng: &mut Rng, n: usize, cell: usize, requests: &mut Vec<Request>) {
    let lent = Request { at: cell, states: usize::MAX, ..Request::default() };
    requests.push(Request { kind: HULL, ..lent });
    for round in cell as u16 * 4..cell as u16 * 4 + 4 {
        requests.push(Request { kind: LETTER, n, station: cell, round, receiver: cell, ..lent });
    }
    for _ in 0..3 {
        let n = if rng.percent(80) { n } else { count(rng) };
        let k = round(rng);
        // Often the coordinator of the round's phase at one end.
        let lead = (k as usize / 4) % n.max(1);
        let sender = if rng.percent(40) { lead } else { station(rng, n) };
        let receiver = if rng.percent(40) { lead } else { station(rng, n) };
        requests.push(Request { kind: LETTER, n, station: sender, round: k, receiver, ..lent });
    }
}

fn book_word(rng: &mut Rng, n: usize, rounds: usize, part: usize) -> u64 {
    if rng.percent(5) {
        return rng.word();
    }
    let p = if rng.percent(95) { rng.below(n.clamp(1, 16)) } else { rng.below(16) };
    let round = rng.below(rounds.clamp(1, 4096));
    let heard = (0..16).fold(0, |set, _| set * 2 + rng.percent(part) as u64);
    let low = if rng.percent(10) { rng.word() >> 32 } else { 0 };
    // Not by the peer's own packing, so that a wrong version of that shows as a difference.
    (p as u64) << 60 | (round as u64) << 48 | heard << 32 | low
}

/// Some recounts over one book, of which each leaves its states to the next, and what is seen of the states.
fn recounts(rng: &mut Rng) -> Input {
    let n = count(rng).min(20);
    let upto = match rng.below(30) {
        0 | 2 => *rng.pick(&[4095, 4096, 65535]),
        1 => rng.below(4096) as u16,
        _ => rng.below(20) as u16,
    };
    let rounds = upto as usize + 1;
    let words = if rng.percent(95) { rng.below(1 + n * rounds.min(20) * 3 / 2 + 3) } else { rng.below(3000) };
    let part = *rng.pick(&[30, 60, 80, 100]);
    let mut book: Vec<u64> = (0..words).map(|_| book_word(rng, n, rounds, part)).collect();
    if rng.percent(20) {
        book.splice(0..0, vec![0; rng.below(4)]);
    }
    let mut requests = Vec::new();
    for _ in 0..rng.from(1, 4) {
        let round = if rng.percent(70) { upto } else { rng.below(rounds) as u16 };
        let (states, letters, pool) = (about(rng, n), about(rng, n), about(rng, n));
        let book = if rng.percent(80) { usize::MAX } else { rng.below(words + 1) };
        requests.push(Request { kind: RECOUNT, round, states, letters, pool, book, ..Request::default() });
        for cell in 0..=STATES {
            ask_state(rng, n, cell, &mut requests);
        }
    }
    Input { rule: rule(rng), values: values(rng, n), requests, pool: vec![7; 3], book }
}

/// A frame's word, seldom spoiled.
fn packed(rng: &mut Rng, rule: u8, sender: usize, receiver: usize, round: u16, value: u16) -> u64 {
    let stamp = *rng.pick(&STAMPS);
    let (sender, receiver, round) = (sender % 16, receiver % 16, round % 4096);
    let word = match rule {
        0 => pack_frame(&Third, &Frame { sender, receiver, round, letter: ThirdLetter { value } }),
        _ => pack_frame(&Last, &Frame { sender, receiver, round, letter: LastLetter { value, stamp } }),
    };
    let word = word.unwrap_or(0);
    match rng.below(24) {
        0 => word ^ (1 << rng.below(64)),
        1 => word | (rng.below(2048) as u64) << 17,
        2 => rng.word(),
        3 => 0,
        4 => word | rng.word() << 60,
        _ => word,
    }
}

/// A shed that the maker plays along on, so that it knows what would happen, and the requests so far.
struct Player<R: Rule> {
    bench: Bench<R>,
    rule: u8,
    values: Vec<u16>,
    n: usize,
    /// The lengths that the buffers are lent with.
    lengths: [usize; 4],
    requests: Vec<Request>,
    /// After how many of a hundred calls all is looked at, and how many are damaged.
    whole: usize,
    damage: usize,
}

impl<R: Rule> Player<R> {
    fn lent(&mut self, lengths: [usize; 4], kind: u8, at: usize, word: u64) -> Reply {
        let [states, letters, pool, book] = lengths;
        let request = Request { kind, at, word, states, letters, pool, book, ..Request::default() };
        self.requests.push(request);
        self.bench.make(&self.values, &request)
    }

    /// All that is seen: the stations, and the cells of states and letters.
    fn look_around(&mut self, rng: &mut Rng) {
        for p in 0..=STATES {
            self.lent(self.lengths, LOOK, p, 0);
        }
        for cell in 0..self.n + 1 {
            ask_state(rng, self.n, cell, &mut self.requests);
        }
        for cell in 0..self.n * (self.n + 1) + 1 {
            self.lent(self.lengths, CELL, cell, 0);
        }
    }

    /// A call, with the right lengths or sometimes with others.
    fn call(&mut self, rng: &mut Rng, kind: u8, k: usize) -> Reply {
        let mut lengths = self.lengths;
        if rng.percent(self.damage) {
            let which = rng.below(4);
            let short = lengths[which].saturating_sub(rng.from(1, 2));
            let low = [self.n.saturating_sub(1), (self.n * (self.n + 1)).saturating_sub(1), short, short][which];
            lengths[which] = *rng.pick(&[low, low, 0, lengths[which] + 1, usize::MAX]);
        }
        let reply = self.lent(lengths, kind, k, 0);
        if rng.percent(self.whole) {
            self.look_around(rng);
        }
        reply
    }

    /// A word is written into the pool; seldom where it is read later, but often enough.
    fn write(&mut self, rng: &mut Rng) {
        let (sender, receiver, round, value) = (station(rng, self.n), station(rng, self.n), round(rng), value(rng));
        let spoiled = rng.percent(30) as u64;
        let word = packed(rng, self.rule, sender, receiver, round, value) | spoiled;
        let place = rng.below(self.bench.shed.c + 1);
        self.lent(self.lengths, WRITE, place, word);
    }

    /// Letters that nobody wrote reach a station, many of them alike, and it turns: so it meets any mailbox, in any state.
    fn forge(&mut self, rng: &mut Rng, p: usize) {
        self.call(rng, SEND, p);
        let alike = value(rng);
        for q in 0..self.n {
            if rng.percent(25) || self.bench.shed.c == 0 {
                continue;
            }
            if self.bench.shed.c == 1 {
                self.call(rng, REPEAT, 0);
            }
            let round = self.bench.shed.records[p].round + if rng.percent(3) { rng.below(3) as u16 } else { 0 };
            let value = if rng.percent(70) { alike } else { value(rng) };
            let word = packed(rng, self.rule, q, p, round, value);
            self.lent(self.lengths, WRITE, 0, word);
            if self.call(rng, DELIVER, 0).refusal != 0 && self.bench.shed.c > 1 {
                self.call(rng, DROP, 0);
            }
        }
        self.call(rng, TURN, p);
    }

    /// The same for many rounds, with one station that nothing from the others reaches.
    fn alone(&mut self, rng: &mut Rng, turns: usize) {
        for p in 0..self.n {
            self.call(rng, SEND, p);
        }
        let p = rng.below(self.n);
        for _ in 0..turns {
            self.forge(rng, p);
        }
    }

    fn stands(&self, stand: Stand) -> Vec<usize> {
        (0..self.bench.shed.n).filter(|p| self.bench.shed.records[*p].stand == stand).collect()
    }

    /// Before the shed is open, and openings that are refused.
    fn before_opening(&mut self, rng: &mut Rng) {
        for _ in 0..rng.from(1, 6) {
            let mut lengths = self.lengths;
            let mut count = self.n;
            match rng.below(9) {
                0 => count = 0,
                1 => {
                    count = rng.from(17, VALUES);
                    (lengths[0], lengths[1]) = (STATES, LETTERS);
                }
                2 => lengths[2] = 0,
                3 => (lengths[2], lengths[3]) = (usize::MAX, usize::MAX),
                4 => lengths[0] = self.n - 1,
                5 => lengths[1] = self.n * (self.n + 1) - 1,
                _ => {
                    let (kind, k) = (rng.from(1, 7) as u8, station(rng, self.n));
                    self.call(rng, kind, k);
                    continue;
                }
            }
            self.lent(lengths, OPEN, count, 0);
            if self.bench.shed.n != 0 {
                return;
            }
        }
    }

    /// Any call by its weight.
    fn weighted(&mut self, rng: &mut Rng, weights: &[usize; 10]) {
        let total: usize = weights.iter().sum();
        let mut draw = rng.below(total);
        let mut action = 0;
        while draw >= weights[action] {
            draw -= weights[action];
            action += 1;
        }
        let (n, c) = (self.n, self.bench.shed.c);
        let place = if rng.percent(95) { rng.below(c) } else { *rng.pick(&[c, c + 1, usize::MAX]) };
        let fresh = self.stands(Stand::Fresh);
        let listening = self.stands(Stand::Listening);
        let (kind, k) = match action {
            0 if !fresh.is_empty() => (SEND, *rng.pick(&fresh)),
            1 | 2 => (DELIVER, place),
            3 => (DROP, place),
            4 => (REPEAT, place),
            5 if !listening.is_empty() => (TURN, *rng.pick(&listening)),
            6 => (CRASH, rng.below(n)),
            7 => return self.write(rng),
            8 if rng.percent(10) => (OPEN, n),
            9 => {
                let p = rng.below(n);
                return self.forge(rng, p);
            }
            _ => (rng.from(1, 7) as u8, station(rng, n)),
        };
        self.call(rng, kind, k);
    }

    /// Rounds in which most frames arrive.
    fn lively(&mut self, rng: &mut Rng, limit: usize) {
        let loss = *rng.pick(&[0, 5, 20]);
        let lag = *rng.pick(&[0, 10, 40]);
        let copies = *rng.pick(&[0, 5, 20]);
        let meddling = *rng.pick(&[0, 0, 20, 60]);
        while self.requests.len() < limit && self.bench.shed.e < self.bench.shed.book_length {
            for p in self.stands(Stand::Fresh) {
                if !rng.percent(lag) {
                    self.call(rng, SEND, p);
                }
            }
            let mut tries = 2 * self.bench.shed.c + 2;
            while tries > 0 && self.bench.shed.c > 0 {
                tries -= 1;
                let kind = match rng.below(100) {
                    draw if draw < loss => DROP,
                    draw if draw < loss + copies => REPEAT,
                    _ => DELIVER,
                };
                let place = rng.below(self.bench.shed.c);
                if self.call(rng, kind, place).refusal != 0 && rng.percent(30) {
                    self.call(rng, DROP, 0);
                }
            }
            for p in self.stands(Stand::Listening) {
                if !rng.percent(lag) {
                    self.call(rng, TURN, p);
                }
            }
            if rng.percent(2) {
                let p = rng.below(self.n);
                self.call(rng, CRASH, p);
            }
            if rng.percent(meddling) {
                self.write(rng);
            }
            if self.stands(Stand::Down).len() == self.n {
                return;
            }
        }
    }

    /// One station up to its last round, and past it.
    fn to_the_last_round(&mut self, rng: &mut Rng) {
        let p = rng.below(self.n);
        for _ in 0..4100 {
            self.call(rng, SEND, p);
            while self.bench.shed.c > 0 {
                let kind = if rng.percent(40) { DELIVER } else { DROP };
                if self.call(rng, kind, 0).refusal != 0 {
                    self.call(rng, DROP, 0);
                }
            }
            if self.call(rng, TURN, p).refusal == Refusal::LastRound.number() {
                break;
            }
        }
    }

    /// What shows the heard sets, the holds and the counts: all send and turn, and a frame is copied.
    fn show(&mut self, rng: &mut Rng) {
        for p in 0..self.bench.shed.n {
            self.call(rng, TURN, p);
            self.call(rng, SEND, p);
            self.call(rng, TURN, p);
        }
        self.call(rng, REPEAT, 0);
    }
}

fn play<R: Rule>(rng: &mut Rng, number: u8, by: R) -> Input {
    let n = if rng.percent(70) { rng.from(1, 4) } else { rng.from(1, 16) };
    let kind = rng.below(1000);
    // Three in a hundred have a buffer that is as long as may be or longer, and one in a hundred goes to the last round.
    let (long, last) = (kind < 30, (30..40).contains(&kind));
    let pool_length = match rng.below(6) {
        0 => rng.from(1, n),
        1 => rng.from(1, n * n),
        _ => rng.from(n * n, 2 * n * n + n),
    };
    let book_length = match rng.below(6) {
        0 => rng.below(3),
        1 => rng.below(4 * n),
        _ => rng.from(4 * n, 12 * n),
    };
    let (n, pool_length, book_length) = if last { (n.min(2), 4, 4200) } else { (n, pool_length, book_length) };
    let (mut pool, mut book) = (pool_length + rng.below(3), book_length + rng.below(3));
    if long {
        if rng.percent(50) {
            pool = 4096 + *rng.pick(&[0, 0, 1]);
        } else {
            book = 65536 + *rng.pick(&[0, 0, 1]);
        }
    }
    let pool: Vec<u64> = (0..pool).map(|_| rng.word()).collect();
    let book: Vec<u64> = (0..book).map(|_| rng.word()).collect();
    let lengths = [n + rng.below(STATES - n + 1), n * (n + 1) + rng.below(4), pool_length, book_length];
    let mut player = Player {
        bench: Bench::new(by, &pool, &book),
        rule: number,
        values: values(rng, VALUES),
        n,
        lengths,
        requests: Vec::new(),
        whole: if long || last { 0 } else { *rng.pick(&[0, 3, 10, 30]) },
        damage: if last { 0 } else { *rng.pick(&[0, 2, 10]) },
    };
    if long || (!last && rng.percent(15)) {
        player.before_opening(rng);
    }
    if long && rng.percent(75) {
        player.lengths[2] = pool.len();
        player.lengths[3] = book.len();
    }
    if player.bench.shed.n == 0 {
        player.lent(player.lengths, OPEN, n, 0);
    }
    if last {
        player.to_the_last_round(rng);
    } else {
        let weights = std::array::from_fn(|i| [6, 10, 10, 2, 2, 6, 0, 1, 1, 2][i] * *rng.pick(&[1, 1, 1, 2, 4, 0]) + [2, 4, 0, 0, 0, 2, 0, 1, 1, 0][i]);
        let turns = *rng.pick(&[5, 20, 60, 120]);
        let style = rng.below(4);
        let limit = turns * if n > 4 { 6 } else { 2 } * (1 + player.whole);
        if style == 1 || style == 2 {
            player.lively(rng, limit);
        }
        if style == 3 {
            player.alone(rng, turns);
        }
        if style != 1 {
            for _ in 0..turns {
                player.weighted(rng, &weights);
            }
        }
        if rng.percent(10) {
            let p = rng.below(n);
            player.call(rng, CRASH, p);
            for _ in 0..10 {
                player.weighted(rng, &weights);
            }
        }
    }
    if !long && rng.percent(70) {
        player.show(rng);
    }
    player.look_around(rng);
    Input { rule: number, values: player.values, requests: player.requests, pool, book }
}

/// The input of a seed and an index: two of three of a shed's calls, and the third of recount.
pub fn ask(seed: u64, index: u64) -> Input {
    let rng = &mut Rng::of(seed ^ 0x5EED, index);
    if rng.percent(67) {
        match rule(rng) {
            0 => play(rng, 0, Third),
            number => play(rng, number, Last),
        }
    } else {
        recounts(rng)
    }
}

#[cfg(test)]
mod tests {
    use super::*;
    use std::collections::BTreeSet;

    #[test]
    fn made_lists_reach_every_refusal_and_every_kind() {
        let mut refused = BTreeSet::new();
        let mut accepted = BTreeSet::new();
        for index in 0..800 {
            let input = ask(3, index);
            let told = answer(run, &input);
            for (i, request) in input.requests.iter().enumerate() {
                match told[2 * i] {
                    0 => accepted.insert(request.kind as u64),
                    number => refused.insert(number),
                };
            }
        }
        assert_eq!((refused.len(), accepted.len()), (15, KINDS.len()));
    }
}
