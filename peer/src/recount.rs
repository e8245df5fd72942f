//! RECOUNT.md: the lockstep run computed again from the words of a book.

use crate::frames::{read_entry, Heard};
use crate::rules::{Rule, LAST_ROUND};

#[derive(Clone, Copy, PartialEq, Eq, Debug)]
#[repr(u8)]
pub enum RecountRefusal {
    ValueCount = 3,
    BufferTooShort = 5,
    RoundTooHigh = 15,
}

impl RecountRefusal {
    pub fn number(self) -> u8 {
        self as u8
    }
}

pub fn recount<R: Rule>(
    rule: &R,
    values: &[u16],
    book: &[u64],
    round: u16,
    first: &mut [R::State],
    second: &mut [R::State],
    row: &mut [R::Letter],
) -> Result<u16, RecountRefusal> {
    let n = values.len();
    if n == 0 || n > rule.most() {
        return Err(RecountRefusal::ValueCount);
    }
    if first.len() < n || second.len() < n || row.len() < n {
        return Err(RecountRefusal::BufferTooShort);
    }
    if round > LAST_ROUND {
        return Err(RecountRefusal::RoundTooHigh);
    }
    for p in 0..n {
        first[p] = rule.first(n, p, values[p]);
    }
    // One pass over the book: for each round and station the first word's senders.
    let mut heard: Vec<[Option<Heard>; 16]> = vec![[None; 16]; round as usize];
    for word in book {
        let entry = read_entry(*word);
        if let Some(sets) = heard.get_mut(entry.round as usize) {
            sets[entry.station].get_or_insert(entry.heard);
        }
    }
    for k in 0..round {
        let sets = heard[k as usize].map(|set| set.unwrap_or(Heard(0)));
        one_round(rule, n, k, &sets, first, second);
        first[..n].copy_from_slice(&second[..n]);
    }
    Ok(round)
}

/// One round of the lockstep run, from all states before it to all states after it.
fn one_round<R: Rule>(rule: &R, n: usize, k: u16, heard: &[Heard; 16], before: &[R::State], after: &mut [R::State]) {
    let mut mailbox: Vec<Option<R::Letter>> = Vec::with_capacity(n);
    for p in 0..n {
        mailbox.clear();
        mailbox.extend((0..n).map(|q| if heard[p].has(q) { rule.letter(n, q, k, before[q], p) } else { None }));
        after[p] = rule.next(n, p, k, before[p], &mailbox);
    }
}

#[cfg(test)]
mod tests {
    use super::*;
    use crate::rules::*;

    const BOOK: [u64; 4] = [0x0000C00000000000, 0x1000000000000000, 0x0001C00000000000, 0x1001C00000000000];

    fn after(book: &[u64], round: u16) -> Vec<(u16, Option<u16>)> {
        let blank = ThirdState { value: 0, hull: None };
        let mut first = [blank; 2];
        let answer = recount(&Third, &[9, 7], book, round, &mut first, &mut [blank; 2], &mut [ThirdLetter { value: 0 }; 2]);
        assert_eq!(answer, Ok(round));
        first.iter().map(|s| (s.value, s.hull)).collect()
    }

    #[test]
    fn the_example() {
        assert_eq!(after(&BOOK, 0), [(9, None), (7, None)]);
        assert_eq!(after(&BOOK, 1), [(7, None), (7, None)]);
        assert_eq!(after(&BOOK, 2), [(7, Some(7)), (7, Some(7))]);
        let mut more = vec![0];
        more.extend(BOOK);
        assert_eq!(after(&more, 1), [(9, None), (7, None)]);
        // The whole book buffer, zeros included.
        let mut longer = BOOK.to_vec();
        longer.resize(20, 0);
        assert_eq!(after(&longer, 2), [(7, Some(7)), (7, Some(7))]);
    }

    #[test]
    fn refusals() {
        let s = ThirdState { value: 1, hull: None };
        let l = ThirdLetter { value: 1 };
        let go = |n: usize, first: usize, second: usize, row: usize, round: u16| {
            recount(&Third, &vec![1; n], &[], round, &mut vec![s; first], &mut vec![s; second], &mut vec![l; row])
        };
        assert_eq!(go(0, 0, 0, 0, 5000), Err(RecountRefusal::ValueCount));
        assert_eq!(go(17, 20, 20, 20, 0), Err(RecountRefusal::ValueCount));
        assert_eq!(go(3, 2, 3, 3, 5000), Err(RecountRefusal::BufferTooShort));
        assert_eq!(go(3, 3, 2, 3, 0), Err(RecountRefusal::BufferTooShort));
        assert_eq!(go(3, 3, 3, 2, 0), Err(RecountRefusal::BufferTooShort));
        assert_eq!(go(3, 3, 3, 3, 4096), Err(RecountRefusal::RoundTooHigh));
        assert_eq!(go(3, 3, 3, 3, 4095), Ok(4095));
    }
}
