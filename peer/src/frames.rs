//! FRAMES.md: frames, the pool and book entries as words of 64 bits.

use crate::rules::{Rule, LAST_ROUND};
use crate::shed::Refusal;

#[derive(Clone, Copy, PartialEq, Eq, Debug)]
pub struct Frame<L> {
    pub sender: usize,
    pub receiver: usize,
    pub round: u16,
    pub letter: L,
}

/// Packing gives the word, or none if the sender or the receiver is above 15 or the round above 4,095.
pub fn pack_frame<R: Rule>(rule: &R, frame: &Frame<R::Letter>) -> Option<u64> {
    if frame.sender > 15 || frame.receiver > 15 || frame.round > LAST_ROUND {
        return None;
    }
    let head = (frame.sender as u64 * 16 + frame.receiver as u64) * 4096 + frame.round as u64;
    Some((head << 44) + rule.pack(frame.letter))
}

/// Reading a word among n stations.
pub fn read_frame<R: Rule>(rule: &R, n: usize, word: u64) -> Option<Frame<R::Letter>> {
    let sender = (word >> 60) as usize;
    let receiver = (word >> 56) as usize % 16;
    let round = ((word >> 44) % 4096) as u16;
    if sender >= n || receiver >= n {
        return None;
    }
    let letter = rule.unpack(word % (1 << 44))?;
    Some(Frame { sender, receiver, round, letter })
}

pub fn frame_at<R: Rule>(rule: &R, n: usize, pool: &[u64], c: usize, place: usize) -> Result<Frame<R::Letter>, Refusal> {
    if place >= c || c > pool.len() {
        return Err(Refusal::NoSuchPlace);
    }
    read_frame(rule, n, pool[place]).ok_or(Refusal::Unreadable)
}

/// Takes out the word at a place; answers the new c.
pub fn take_out(pool: &mut [u64], c: usize, place: usize) -> Result<usize, Refusal> {
    if place >= c || c > pool.len() {
        return Err(Refusal::NoSuchPlace);
    }
    pool[place] = pool[c - 1];
    pool[c - 1] = 0;
    Ok(c - 1)
}

/// Adds words, all or none; answers the new c.
pub fn add(pool: &mut [u64], c: usize, words: &[u64]) -> Result<usize, Refusal> {
    if c + words.len() > pool.len() {
        return Err(Refusal::PoolFull);
    }
    pool[c..c + words.len()].copy_from_slice(words);
    Ok(c + words.len())
}

/// Adds a copy of the word at a place; answers the copy's place.
pub fn repeat(pool: &mut [u64], c: usize, place: usize) -> Result<usize, Refusal> {
    if place >= c || c > pool.len() {
        return Err(Refusal::NoSuchPlace);
    }
    if c == pool.len() {
        return Err(Refusal::PoolFull);
    }
    pool[c] = pool[place];
    Ok(c)
}

pub fn clear(words: &mut [u64]) {
    words.fill(0);
}

/// A heard set: station q has the weight 2^(15 - q).
#[derive(Clone, Copy, PartialEq, Eq, Debug, Default)]
pub struct Heard(pub u16);

impl Heard {
    pub fn has(self, q: usize) -> bool {
        q < 16 && self.0 & (0x8000 >> q) != 0
    }

    pub fn with(self, q: usize) -> Heard {
        Heard(self.0 | (0x8000 >> q))
    }

    pub fn size(self) -> usize {
        self.0.count_ones() as usize
    }
}

#[derive(Clone, Copy, PartialEq, Eq, Debug)]
pub struct Entry {
    pub station: usize,
    pub round: u16,
    pub heard: Heard,
}

pub fn pack_entry(entry: &Entry) -> Option<u64> {
    if entry.station > 15 || entry.round > LAST_ROUND {
        return None;
    }
    Some(((entry.station as u64 * 4096 + entry.round as u64) << 48) + ((entry.heard.0 as u64) << 32))
}

/// Every word is an entry; the low 32 bits are ignored.
pub fn read_entry(word: u64) -> Entry {
    Entry {
        station: (word >> 60) as usize,
        round: ((word >> 48) % 4096) as u16,
        heard: Heard((word >> 32) as u16),
    }
}

/// The senders of a station in a round by a book: those of the first word for both, or nobody.
pub fn senders(book: &[u64], station: usize, round: u16) -> Heard {
    for word in book {
        let entry = read_entry(*word);
        if entry.station == station && entry.round == round {
            return entry.heard;
        }
    }
    Heard(0)
}

#[cfg(test)]
mod tests {
    use super::*;
    use crate::rules::*;

    #[test]
    fn worked_words() {
        let third = Frame { sender: 0, receiver: 1, round: 1, letter: ThirdLetter { value: 7 } };
        assert_eq!(Third.pack(third.letter), 0x00070000000);
        assert_eq!(pack_frame(&Third, &third), Some(0x0100100070000000));
        assert_eq!(read_frame(&Third, 2, 0x0100100070000000), Some(third));
        let last = Frame { sender: 2, receiver: 0, round: 4, letter: LastLetter { value: 300, stamp: 1 } };
        assert_eq!(pack_frame(&Last, &last), Some(0x20004012C0020000));
        assert_eq!(read_frame(&Last, 3, 0x20004012C0020000), Some(last));
        assert_eq!(read_frame(&Last, 2, 0x20004012C0020000), None);
        for n in 1..=16 {
            assert_eq!(read_frame(&Third, n, 0x20004012C0020000), None);
            assert_eq!(
                read_frame(&Third, n, 0),
                Some(Frame { sender: 0, receiver: 0, round: 0, letter: ThirdLetter { value: 0 } })
            );
            assert_eq!(
                read_frame(&Last, n, 0),
                Some(Frame { sender: 0, receiver: 0, round: 0, letter: LastLetter { value: 0, stamp: 0 } })
            );
        }
    }

    #[test]
    fn the_pool_example() {
        let (a, b, c, d, e, f) = (1, 2, 3, 4, 5, 6);
        let mut pool = [a, b, c, d, 0];
        assert_eq!(take_out(&mut pool, 4, 1), Ok(3));
        assert_eq!(pool, [a, d, c, 0, 0]);
        assert_eq!(take_out(&mut pool, 3, 2), Ok(2));
        assert_eq!(pool, [a, d, 0, 0, 0]);
        assert_eq!(add(&mut pool, 2, &[e, f]), Ok(4));
        assert_eq!(pool, [a, d, e, f, 0]);
        assert_eq!(add(&mut pool, 4, &[e, f]), Err(Refusal::PoolFull));
        assert_eq!(repeat(&mut pool, 4, 1), Ok(4));
        assert_eq!(pool, [a, d, e, f, d]);
        assert_eq!(repeat(&mut pool, 5, 1), Err(Refusal::PoolFull));
        assert_eq!(repeat(&mut pool, 5, 5), Err(Refusal::NoSuchPlace));
        assert_eq!(take_out(&mut pool, 6, 1), Err(Refusal::NoSuchPlace));
    }

    #[test]
    fn the_worked_entry() {
        let entry = Entry { station: 1, round: 1, heard: Heard(0).with(0).with(1) };
        assert_eq!(pack_entry(&entry), Some(0x1001C00000000000));
        assert_eq!(read_entry(0x1001C00000000000), entry);
        assert_eq!(read_entry(0x1001C000FFFFFFFF), entry);
        assert_eq!(senders(&[0, 0x1001C00000000000, 0x1001000000000000], 1, 1), entry.heard);
        assert_eq!(senders(&[0, 0x0000C00000000000], 0, 0), Heard(0));
    }
}
