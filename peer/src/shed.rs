//! CALLS.md: the shed, its eight calls with all refusals, and lists of steps.

use crate::frames::{self, Entry, Frame, Heard};
use crate::rules::{Rule, LAST_ROUND};

#[derive(Clone, Copy, PartialEq, Eq, Debug)]
#[repr(u8)]
pub enum Refusal {
    Shut = 1,
    AlreadyOpen = 2,
    ValueCount = 3,
    BufferSize = 4,
    BufferMismatch = 5,
    NoSuchStation = 6,
    NoSuchPlace = 7,
    Unreadable = 8,
    StationDown = 9,
    AlreadySent = 10,
    NotListening = 11,
    HoldsLetter = 12,
    PoolFull = 13,
    BookFull = 14,
    LastRound = 15,
}

impl Refusal {
    pub fn number(self) -> u8 {
        self as u8
    }
}

#[derive(Clone, Copy, PartialEq, Eq, Debug)]
pub enum Stand {
    Fresh,
    Listening,
    Down,
}

#[derive(Clone, Copy, PartialEq, Eq, Debug)]
pub struct Hold {
    pub sender: usize,
    pub round: u16,
}

#[derive(Clone, Copy, PartialEq, Eq, Debug)]
pub struct Record {
    pub round: u16,
    pub stand: Stand,
    pub heard: Heard,
    pub hold: Option<Hold>,
}

impl Record {
    pub const BLANK: Record = Record { round: 0, stand: Stand::Fresh, heard: Heard(0), hold: None };
}

#[derive(Clone, Copy, PartialEq, Eq, Debug)]
pub enum Fate {
    Late,
    Again,
    Taken,
    Early,
}

#[derive(Clone, Copy, PartialEq, Eq, Debug)]
pub struct Sight {
    pub stand: Stand,
    pub round: u16,
    pub hull: Option<u16>,
}

/// The four lent buffers.
pub struct Buffers<'a, R: Rule> {
    pub states: &'a mut [R::State],
    pub letters: &'a mut [R::Letter],
    pub pool: &'a mut [u64],
    pub book: &'a mut [u64],
}

/// A shed with its rule and with buffers of its own, of which each call is lent as much as it is to have.
pub struct Bench<R: Rule> {
    pub rule: R,
    pub shed: Shed,
    pub states: Vec<R::State>,
    pub letters: Vec<R::Letter>,
    pub pool: Vec<u64>,
    pub book: Vec<u64>,
}

#[derive(Clone, PartialEq, Eq, Debug)]
pub struct Shed {
    /// 0 while shut.
    pub n: usize,
    pub pool_length: usize,
    pub book_length: usize,
    pub c: usize,
    pub e: usize,
    pub records: [Record; 16],
}

impl Default for Shed {
    fn default() -> Shed {
        Shed::new()
    }
}

impl Shed {
    pub fn new() -> Shed {
        Shed { n: 0, pool_length: 0, book_length: 0, c: 0, e: 0, records: [Record::BLANK; 16] }
    }

    /// Refusals 1 and 5, which every call but open asks first.
    fn usable<R: Rule>(&self, b: &Buffers<R>) -> Result<(), Refusal> {
        if self.n == 0 {
            return Err(Refusal::Shut);
        }
        if b.states.len() < self.n
            || b.letters.len() < self.n * (self.n + 1)
            || b.pool.len() != self.pool_length
            || b.book.len() != self.book_length
        {
            return Err(Refusal::BufferMismatch);
        }
        Ok(())
    }

    /// Refusal 6.
    fn station(&self, p: usize) -> Result<(), Refusal> {
        if p >= self.n {
            return Err(Refusal::NoSuchStation);
        }
        Ok(())
    }

    /// Refusal 9.
    fn not_down(&self, p: usize) -> Result<(), Refusal> {
        if self.records[p].stand == Stand::Down {
            return Err(Refusal::StationDown);
        }
        Ok(())
    }

    pub fn open<R: Rule>(&mut self, rule: &R, b: &mut Buffers<R>, values: &[u16]) -> Result<usize, Refusal> {
        let n = values.len();
        if self.n != 0 {
            return Err(Refusal::AlreadyOpen);
        }
        if n == 0 || n > rule.most() {
            return Err(Refusal::ValueCount);
        }
        if b.pool.is_empty() || b.pool.len() > 4096 || b.book.len() > 65536 {
            return Err(Refusal::BufferSize);
        }
        if b.states.len() < n || b.letters.len() < n * (n + 1) {
            return Err(Refusal::BufferMismatch);
        }
        for p in 0..n {
            b.states[p] = rule.first(n, p, values[p]);
        }
        frames::clear(b.pool);
        frames::clear(b.book);
        *self = Shed {
            n,
            pool_length: b.pool.len(),
            book_length: b.book.len(),
            c: 0,
            e: 0,
            records: [Record::BLANK; 16],
        };
        Ok(n)
    }

    pub fn send<R: Rule>(&mut self, rule: &R, b: &mut Buffers<R>, p: usize) -> Result<usize, Refusal> {
        self.usable(b)?;
        self.station(p)?;
        self.not_down(p)?;
        if self.records[p].stand == Stand::Listening {
            return Err(Refusal::AlreadySent);
        }
        let n = self.n;
        let round = self.records[p].round;
        let mut words = Vec::new();
        for q in 0..n {
            if let Some(letter) = rule.letter(n, p, round, b.states[p], q) {
                let frame = Frame { sender: p, receiver: q, round, letter };
                words.push(frames::pack_frame(rule, &frame).expect("stations below 16, round at most 4,095"));
            }
        }
        self.c = frames::add(b.pool, self.c, &words)?;
        let record = &mut self.records[p];
        record.stand = Stand::Listening;
        if let Some(hold) = record.hold {
            if hold.round == round {
                b.letters[p * (n + 1) + hold.sender] = b.letters[p * (n + 1) + n];
                record.heard = record.heard.with(hold.sender);
                record.hold = None;
            }
        }
        Ok(words.len())
    }

    pub fn deliver<R: Rule>(&mut self, rule: &R, b: &mut Buffers<R>, k: usize) -> Result<Fate, Refusal> {
        self.usable(b)?;
        let n = self.n;
        let frame = frames::frame_at(rule, n, b.pool, self.c, k)?;
        let p = frame.receiver;
        self.not_down(p)?;
        if self.records[p].stand == Stand::Fresh {
            return Err(Refusal::NotListening);
        }
        if self.records[p].hold.is_some() {
            return Err(Refusal::HoldsLetter);
        }
        self.c = frames::take_out(b.pool, self.c, k)?;
        let record = &mut self.records[p];
        if frame.round < record.round {
            return Ok(Fate::Late);
        }
        if frame.round > record.round {
            b.letters[p * (n + 1) + n] = frame.letter;
            record.hold = Some(Hold { sender: frame.sender, round: frame.round });
            return Ok(Fate::Early);
        }
        if record.heard.has(frame.sender) {
            return Ok(Fate::Again);
        }
        b.letters[p * (n + 1) + frame.sender] = frame.letter;
        record.heard = record.heard.with(frame.sender);
        Ok(Fate::Taken)
    }

    pub fn drop<R: Rule>(&mut self, _rule: &R, b: &mut Buffers<R>, k: usize) -> Result<usize, Refusal> {
        self.usable(b)?;
        self.c = frames::take_out(b.pool, self.c, k)?;
        Ok(0)
    }

    pub fn repeat<R: Rule>(&mut self, _rule: &R, b: &mut Buffers<R>, k: usize) -> Result<usize, Refusal> {
        self.usable(b)?;
        let place = frames::repeat(b.pool, self.c, k)?;
        self.c += 1;
        Ok(place)
    }

    pub fn turn<R: Rule>(&mut self, rule: &R, b: &mut Buffers<R>, p: usize) -> Result<u16, Refusal> {
        self.usable(b)?;
        self.station(p)?;
        self.not_down(p)?;
        if self.records[p].stand == Stand::Fresh {
            return Err(Refusal::NotListening);
        }
        if self.e == self.book_length {
            return Err(Refusal::BookFull);
        }
        let n = self.n;
        let record = &mut self.records[p];
        let round = record.round;
        if round == LAST_ROUND {
            return Err(Refusal::LastRound);
        }
        let mailbox: Vec<Option<R::Letter>> = (0..n)
            .map(|q| if record.heard.has(q) { Some(b.letters[p * (n + 1) + q]) } else { None })
            .collect();
        b.states[p] = rule.next(n, p, round, b.states[p], &mailbox);
        let entry = Entry { station: p, round, heard: record.heard };
        b.book[self.e] = frames::pack_entry(&entry).expect("station below 16, round at most 4,095");
        self.e += 1;
        record.round = round + 1;
        record.stand = Stand::Fresh;
        record.heard = Heard(0);
        Ok(round + 1)
    }

    pub fn crash<R: Rule>(&mut self, _rule: &R, b: &mut Buffers<R>, p: usize) -> Result<usize, Refusal> {
        self.usable(b)?;
        self.station(p)?;
        self.not_down(p)?;
        self.records[p].stand = Stand::Down;
        Ok(0)
    }

    pub fn look<R: Rule>(&self, rule: &R, b: &Buffers<R>, p: usize) -> Result<Sight, Refusal> {
        self.usable(b)?;
        self.station(p)?;
        let record = &self.records[p];
        Ok(Sight { stand: record.stand, round: record.round, hull: rule.hull(b.states[p]) })
    }

    /// Makes the call that a step names and answers its refusal, or none.
    pub fn step<R: Rule>(&mut self, rule: &R, b: &mut Buffers<R>, step: Step) -> Option<Refusal> {
        match step {
            Step::Send(p) => self.send(rule, b, p).err(),
            Step::Deliver(k) => self.deliver(rule, b, k).err(),
            Step::Drop(k) => self.drop(rule, b, k).err(),
            Step::Repeat(k) => self.repeat(rule, b, k).err(),
            Step::Turn(p) => self.turn(rule, b, p).err(),
            Step::Crash(p) => self.crash(rule, b, p).err(),
        }
    }

    /// Makes all steps; writes each outcome as far as there are cells.
    pub fn run<R: Rule>(&mut self, rule: &R, b: &mut Buffers<R>, steps: &[Step], outcomes: &mut [Option<Refusal>]) {
        for (i, step) in steps.iter().enumerate() {
            let outcome = self.step(rule, b, *step);
            if i < outcomes.len() {
                outcomes[i] = outcome;
            }
        }
    }
}

#[derive(Clone, Copy, PartialEq, Eq, Debug)]
pub enum Step {
    Send(usize),
    Deliver(usize),
    Drop(usize),
    Repeat(usize),
    Turn(usize),
    Crash(usize),
}

/// Opens a new shed on the buffers and makes all steps.
pub fn conduct<R: Rule>(
    rule: &R,
    b: &mut Buffers<R>,
    values: &[u16],
    steps: &[Step],
) -> Result<(Shed, Vec<Option<Refusal>>), Refusal> {
    let mut outcomes = vec![None; steps.len()];
    let mut shed = Shed::new();
    shed.open(rule, b, values)?;
    shed.run(rule, b, steps, &mut outcomes);
    Ok((shed, outcomes))
}

#[cfg(test)]
mod tests {
    use super::*;
    use crate::rules::*;

    struct Own {
        states: Vec<ThirdState>,
        letters: Vec<ThirdLetter>,
        pool: Vec<u64>,
        book: Vec<u64>,
    }

    impl Own {
        fn new(states: usize, letters: usize, pool: usize, book: usize) -> Own {
            Own {
                states: vec![ThirdState { value: 77, hull: None }; states],
                letters: vec![ThirdLetter { value: 88 }; letters],
                pool: vec![99; pool],
                book: vec![99; book],
            }
        }
        fn lend(&mut self) -> Buffers<'_, Third> {
            Buffers { states: &mut self.states, letters: &mut self.letters, pool: &mut self.pool, book: &mut self.book }
        }
    }

    #[test]
    fn openings() {
        let mut shed = Shed::new();
        let mut own = Own::new(4, 12, 8, 2);
        assert_eq!(shed.send(&Third, &mut own.lend(), 0), Err(Refusal::Shut));
        assert_eq!(shed.open(&Third, &mut own.lend(), &[]), Err(Refusal::ValueCount));
        assert_eq!(shed.open(&Third, &mut own.lend(), &[0; 17]), Err(Refusal::ValueCount));
        assert_eq!(shed.open(&Third, &mut Own::new(0, 0, 0, 0).lend(), &[1]), Err(Refusal::BufferSize));
        assert_eq!(shed.open(&Third, &mut Own::new(0, 0, 4097, 0).lend(), &[1]), Err(Refusal::BufferSize));
        assert_eq!(shed.open(&Third, &mut Own::new(0, 0, 1, 65537).lend(), &[1]), Err(Refusal::BufferSize));
        assert_eq!(shed.open(&Third, &mut own.lend(), &[1; 4]), Err(Refusal::BufferMismatch));
        assert_eq!(shed.open(&Third, &mut own.lend(), &[4, 5, 6]), Ok(3));
        assert_eq!(shed.open(&Third, &mut own.lend(), &[]), Err(Refusal::AlreadyOpen));
        assert_eq!(own.states[2], ThirdState { value: 6, hull: None });
        assert_eq!(own.states[3], ThirdState { value: 77, hull: None });
        assert!(own.letters.iter().all(|l| l.value == 88));
        assert_eq!(own.pool, vec![0; 8]);
        assert_eq!(own.book, vec![0; 2]);
        assert_eq!(shed.look(&Third, &Own::new(3, 12, 8, 3).lend(), 9), Err(Refusal::BufferMismatch));
        assert_eq!(shed.look(&Third, &own.lend(), 3), Err(Refusal::NoSuchStation));
    }

    #[test]
    fn edges() {
        let mut own = Own::new(2, 6, 3, 1);
        let mut shed = Shed::new();
        let b = &mut own.lend();
        shed.open(&Third, b, &[1, 2]).unwrap();
        assert_eq!(shed.turn(&Third, b, 0), Err(Refusal::NotListening));
        assert_eq!(shed.send(&Third, b, 0), Ok(2));
        assert_eq!(shed.send(&Third, b, 1), Err(Refusal::PoolFull));
        assert_eq!(shed.records[1].stand, Stand::Fresh);
        assert_eq!(shed.repeat(&Third, b, 0), Ok(2));
        assert_eq!(shed.repeat(&Third, b, 0), Err(Refusal::PoolFull));
        assert_eq!(shed.deliver(&Third, b, 1), Err(Refusal::NotListening));
        assert_eq!(shed.deliver(&Third, b, 2), Ok(Fate::Taken));
        assert_eq!(shed.deliver(&Third, b, 0), Ok(Fate::Again));
        assert_eq!(shed.turn(&Third, b, 0), Ok(1));
        assert_eq!(b.book[0], 0x0000800000000000);
        b.pool[0] |= 1;
        assert_eq!(shed.deliver(&Third, b, 0), Err(Refusal::Unreadable));
        assert_eq!(shed.drop(&Third, b, 0), Ok(0));
        assert_eq!(shed.send(&Third, b, 0), Ok(2));
        assert_eq!(shed.turn(&Third, b, 0), Err(Refusal::BookFull));
        assert_eq!(shed.crash(&Third, b, 0), Ok(0));
        assert_eq!(shed.crash(&Third, b, 0), Err(Refusal::StationDown));
    }

    #[test]
    fn a_hold_for_a_later_round() {
        let mut own = Own::new(2, 6, 20, 9);
        let mut shed = Shed::new();
        let b = &mut own.lend();
        shed.open(&Third, b, &[1, 2]).unwrap();
        for _ in 0..2 {
            shed.send(&Third, b, 0).unwrap();
            shed.turn(&Third, b, 0).unwrap();
        }
        assert_eq!(shed.send(&Third, b, 0), Ok(2));
        assert_eq!(shed.c, 6);
        assert_eq!(shed.send(&Third, b, 1), Ok(2));
        assert_eq!(shed.deliver(&Third, b, 5), Ok(Fate::Early));
        assert_eq!(shed.records[1].hold, Some(Hold { sender: 0, round: 2 }));
        assert_eq!(b.letters[5].value, 1);
        assert_eq!(shed.deliver(&Third, b, 1), Err(Refusal::HoldsLetter));
        assert_eq!(shed.turn(&Third, b, 1), Ok(1));
        assert_eq!(shed.deliver(&Third, b, 1), Err(Refusal::NotListening));
        assert_eq!(shed.send(&Third, b, 1), Ok(2));
        assert_eq!(b.letters[3].value, 88);
        assert_eq!(shed.turn(&Third, b, 1), Ok(2));
        assert_eq!(shed.send(&Third, b, 1), Ok(2));
        assert_eq!(b.letters[3].value, 1);
        assert_eq!(b.letters[5].value, 1);
        assert_eq!(shed.records[1].hold, None);
        assert!(shed.records[1].heard.has(0));
        assert_eq!(shed.deliver(&Third, b, 1), Ok(Fate::Late));
    }
}
