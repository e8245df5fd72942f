//! RULES.md: the interface of a voting rule, and the two rules third and last.

use std::fmt::Debug;

/// The last round of a station.
pub const LAST_ROUND: u16 = 4095;

pub trait Rule {
    type State: Copy + PartialEq + Debug;
    type Letter: Copy + PartialEq + Debug;

    /// The most stations, 1 to 16.
    fn most(&self) -> usize;
    fn first(&self, n: usize, station: usize, value: u16) -> Self::State;
    fn letter(&self, n: usize, sender: usize, round: u16, state: Self::State, receiver: usize) -> Option<Self::Letter>;
    fn next(&self, n: usize, station: usize, round: u16, state: Self::State, mailbox: &[Option<Self::Letter>]) -> Self::State;
    fn hull(&self, state: Self::State) -> Option<u16>;
    fn pack(&self, letter: Self::Letter) -> u64;
    fn unpack(&self, number: u64) -> Option<Self::Letter>;

    /// "Call (n, station, round) outside if n is 0, n is above most, the station is not below n,
    /// or the round is above 4,095."
    fn outside(&self, n: usize, station: usize, round: u16) -> bool {
        n == 0 || n > self.most() || station >= n || round > LAST_ROUND
    }
}

/// third: OneThirdRule.
#[derive(Clone, Copy, Debug)]
pub struct Third;

#[derive(Clone, Copy, PartialEq, Eq, Debug)]
pub struct ThirdState {
    pub value: u16,
    pub hull: Option<u16>,
}

#[derive(Clone, Copy, PartialEq, Eq, Debug)]
pub struct ThirdLetter {
    pub value: u16,
}

impl Rule for Third {
    type State = ThirdState;
    type Letter = ThirdLetter;

    fn most(&self) -> usize {
        16
    }

    fn first(&self, _n: usize, _station: usize, value: u16) -> ThirdState {
        ThirdState { value, hull: None }
    }

    fn letter(&self, n: usize, sender: usize, round: u16, state: ThirdState, receiver: usize) -> Option<ThirdLetter> {
        if self.outside(n, sender, round) || receiver >= n {
            return None;
        }
        Some(ThirdLetter { value: state.value })
    }

    fn next(&self, n: usize, station: usize, round: u16, state: ThirdState, mailbox: &[Option<ThirdLetter>]) -> ThirdState {
        if self.outside(n, station, round) || mailbox.len() != n {
            return state;
        }
        let values: Vec<u16> = mailbox.iter().flatten().map(|letter| letter.value).collect();
        let times = |value: u16| values.iter().filter(|other| **other == value).count();
        let mut after = state;
        let enough = 3 * values.len() > 2 * n;
        // The value that occurs most often so far, the smallest of these in a tie, and how often.
        let mut best = (state.value, 0);
        for &value in &values {
            let often = times(value);
            if often > best.1 || (often == best.1 && value < best.0) {
                best = (value, often);
            }
            if state.hull.is_none() && 3 * often > 2 * n {
                after.hull = Some(value);
            }
        }
        if enough {
            after.value = best.0;
        }
        after
    }

    fn hull(&self, state: ThirdState) -> Option<u16> {
        state.hull
    }

    fn pack(&self, letter: ThirdLetter) -> u64 {
        (letter.value as u64) << 28
    }

    fn unpack(&self, number: u64) -> Option<ThirdLetter> {
        if number % (1 << 28) == 0 && number < 1 << 44 {
            Some(ThirdLetter { value: (number >> 28) as u16 })
        } else {
            None
        }
    }
}

/// last: LastVoting.
#[derive(Clone, Copy, Debug)]
pub struct Last;

#[derive(Clone, Copy, PartialEq, Eq, Debug)]
pub struct LastState {
    pub value: u16,
    pub stamp: u16,
    pub vote: u16,
    pub committed: bool,
    pub ready: bool,
    pub hull: Option<u16>,
}

#[derive(Clone, Copy, PartialEq, Eq, Debug)]
pub struct LastLetter {
    pub value: u16,
    pub stamp: u16,
}

/// What a stamp counts as.
pub fn cap(stamp: u16) -> u16 {
    stamp.min(1024)
}

impl Rule for Last {
    type State = LastState;
    type Letter = LastLetter;

    fn most(&self) -> usize {
        16
    }

    fn first(&self, _n: usize, _station: usize, value: u16) -> LastState {
        LastState { value, stamp: 0, vote: 0, committed: false, ready: false, hull: None }
    }

    fn letter(&self, n: usize, sender: usize, round: u16, state: LastState, receiver: usize) -> Option<LastLetter> {
        if self.outside(n, sender, round) || receiver >= n {
            return None;
        }
        let phase = round / 4;
        let coordinator = phase as usize % n;
        match round % 4 {
            0 if receiver == coordinator => Some(LastLetter { value: state.value, stamp: cap(state.stamp) }),
            1 if sender == coordinator && state.committed => Some(LastLetter { value: state.vote, stamp: 0 }),
            2 if receiver == coordinator && cap(state.stamp) == phase + 1 => Some(LastLetter { value: 0, stamp: 0 }),
            3 if sender == coordinator && state.ready => Some(LastLetter { value: state.vote, stamp: 0 }),
            _ => None,
        }
    }

    fn next(&self, n: usize, station: usize, round: u16, state: LastState, mailbox: &[Option<LastLetter>]) -> LastState {
        if self.outside(n, station, round) || mailbox.len() != n {
            return state;
        }
        let phase = round / 4;
        let coordinator = phase as usize % n;
        let m = mailbox.iter().flatten().count();
        let mut after = state;
        match round % 4 {
            0 => {
                if station == coordinator && 2 * m > n {
                    // The largest cap(stamp), in a tie the lowest sender.
                    let mut best: Option<LastLetter> = None;
                    for letter in mailbox.iter().flatten() {
                        if best.is_none() || cap(letter.stamp) > cap(best.unwrap().stamp) {
                            best = Some(*letter);
                        }
                    }
                    after.vote = best.unwrap().value;
                    after.committed = true;
                }
            }
            1 => {
                if let Some(letter) = mailbox[coordinator] {
                    after.value = letter.value;
                    after.stamp = phase + 1;
                }
            }
            2 => {
                if station == coordinator && 2 * m > n {
                    after.ready = true;
                }
            }
            _ => {
                if let Some(letter) = mailbox[coordinator] {
                    if state.hull.is_none() {
                        after.hull = Some(letter.value);
                    }
                }
                if station == coordinator {
                    after.committed = false;
                    after.ready = false;
                }
            }
        }
        after
    }

    fn hull(&self, state: LastState) -> Option<u16> {
        state.hull
    }

    fn pack(&self, letter: LastLetter) -> u64 {
        ((letter.value as u64) << 28) + ((cap(letter.stamp) as u64) << 17)
    }

    fn unpack(&self, number: u64) -> Option<LastLetter> {
        let value = number >> 28;
        let stamp = (number >> 17) % (1 << 11);
        if number % (1 << 17) == 0 && value < 1 << 16 && stamp <= 1024 {
            Some(LastLetter { value: value as u16, stamp: stamp as u16 })
        } else {
            None
        }
    }
}

#[cfg(test)]
mod tests {
    use super::*;

    fn third(n: usize, state: ThirdState, values: &[Option<u16>]) -> ThirdState {
        let mailbox: Vec<_> = values.iter().map(|v| v.map(|value| ThirdLetter { value })).collect();
        Third.next(n, 0, 0, state, &mailbox)
    }

    #[test]
    fn examples_of_third() {
        let none = |value| ThirdState { value, hull: None };
        assert_eq!(third(2, none(9), &[Some(9), Some(7)]), none(7));
        assert_eq!(third(3, none(1), &[Some(7), Some(7), Some(9)]), none(7));
        assert_eq!(third(3, none(1), &[Some(7), Some(7), Some(7)]), ThirdState { value: 7, hull: Some(7) });
        assert_eq!(third(3, none(1), &[Some(7), Some(7), None]), none(1));
        let shown = ThirdState { value: 3, hull: Some(3) };
        assert_eq!(third(3, shown, &[Some(7), None, Some(7)]), shown);
    }

    #[test]
    fn guards() {
        let s = ThirdState { value: 9, hull: None };
        assert_eq!(Third.letter(0, 0, 0, s, 0), None);
        assert_eq!(Third.letter(17, 0, 0, s, 0), None);
        assert_eq!(Third.letter(2, 2, 0, s, 0), None);
        assert_eq!(Third.letter(2, 0, 4096, s, 0), None);
        assert_eq!(Third.letter(2, 0, 4095, s, 2), None);
        assert_eq!(Third.letter(2, 0, 4095, s, 1), Some(ThirdLetter { value: 9 }));
        let l = Some(ThirdLetter { value: 1 });
        assert_eq!(Third.next(2, 0, 0, s, &[l]), s);
        assert_eq!(Third.next(2, 0, 4096, s, &[l, l]), s);
        assert_eq!(Third.next(2, 2, 0, s, &[l, l]), s);
    }

    fn letters(list: &[Option<(u16, u16)>]) -> Vec<Option<LastLetter>> {
        list.iter().map(|l| l.map(|(value, stamp)| LastLetter { value, stamp })).collect()
    }

    #[test]
    fn examples_of_last() {
        let s = Last.first(4, 0, 5);
        assert!(!Last.next(4, 0, 0, s, &letters(&[Some((1, 0)), Some((2, 0)), None, None])).committed);
        assert!(Last.next(4, 0, 0, s, &letters(&[Some((1, 0)), Some((2, 0)), None, Some((3, 0))])).committed);
        let vote = Last.next(3, 0, 0, s, &letters(&[Some((300, 1)), Some((200, 2)), Some((100, 2))]));
        assert_eq!((vote.vote, vote.committed), (200, true));
        assert_eq!(Last.unpack(1024 << 17), Some(LastLetter { value: 0, stamp: 1024 }));
        assert_eq!(Last.unpack(1025 << 17), None);
        let packed = Last.pack(LastLetter { value: 5, stamp: 1500 });
        assert_eq!(packed, (5 << 28) + (1024 << 17));
        assert_eq!(Last.unpack(packed), Some(LastLetter { value: 5, stamp: 1024 }));
        // Two stamps above 1,024 compare as equal.
        let tie = Last.next(3, 0, 0, s, &letters(&[None, Some((2, 1024)), Some((3, 60000))]));
        assert_eq!(tie.vote, 2);
    }

    /// S(rounds) of a lockstep run, straight from the definition.
    fn lockstep<R: Rule>(rule: &R, values: &[u16], rounds: u16, hears: impl Fn(usize, u16, usize) -> bool) -> Vec<R::State> {
        let n = values.len();
        let mut states: Vec<_> = (0..n).map(|p| rule.first(n, p, values[p])).collect();
        for k in 0..rounds {
            states = (0..n)
                .map(|p| {
                    let mailbox: Vec<_> = (0..n)
                        .map(|q| if hears(p, k, q) { rule.letter(n, q, k, states[q], p) } else { None })
                        .collect();
                    rule.next(n, p, k, states[p], &mailbox)
                })
                .collect();
        }
        states
    }

    #[test]
    fn a_phase_that_goes_well() {
        let all = |_: usize, _: u16, _: usize| true;
        assert!(lockstep(&Last, &[5, 7, 9], 3, all).iter().all(|s| s.hull.is_none()));
        let s = lockstep(&Last, &[5, 7, 9], 4, all);
        assert!(s.iter().all(|s| s.hull == Some(5) && s.value == 5 && s.stamp == 1));
        assert!(!s[0].committed && !s[0].ready);
    }

    #[test]
    fn a_phase_that_breaks_off() {
        // In round 1 only station 1 hears station 0; from round 2 on nobody hears station 0.
        let hears = |p: usize, k: u16, q: usize| match k {
            0 => true,
            1 => q != 0 || p == 1,
            _ => q != 0,
        };
        assert!(lockstep(&Last, &[5, 7, 9], 4, hears).iter().all(|s| s.hull.is_none()));
        assert_eq!(lockstep(&Last, &[5, 7, 9], 8, hears)[2].hull, Some(5));
        let deaf = |_: usize, k: u16, q: usize| k == 0 || q != 0;
        assert_eq!(lockstep(&Last, &[5, 7, 9], 8, deaf)[2].hull, Some(7));
    }
}
