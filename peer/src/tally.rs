//! GUARANTEE.md: the tally, and a check of the guarantee on one finished run.

use crate::frames::{pack_entry, Entry, Heard};
use crate::recount::recount;
use crate::rules::Rule;
use crate::shed::{Buffers, Refusal, Shed, Step};

pub struct Tally {
    pub rounds: Vec<u16>,
    /// Sender, receiver, round.
    pub slips: Vec<(usize, usize, u16)>,
    /// Receiver, round, sender.
    pub notes: Vec<(usize, u16, usize)>,
    pub triples: Vec<Entry>,
}

/// The lockstep run over the triples, as far as `round`, by the definition (all rounds at once).
fn run_over<R: Rule>(rule: &R, values: &[u16], triples: &[Entry], rounds: u16) -> Vec<Vec<R::State>> {
    let n = values.len();
    let mut run: Vec<Vec<R::State>> = vec![(0..n).map(|p| rule.first(n, p, values[p])).collect()];
    for k in 0..rounds {
        let now = run[k as usize].clone();
        let mut sets = vec![Heard(0); n];
        for triple in triples.iter().rev().filter(|t| t.round == k) {
            sets[triple.station] = triple.heard;
        }
        run.push(
            (0..n)
                .map(|p| {
                    let mailbox: Vec<_> = (0..n)
                        .map(|q| if sets[p].has(q) { rule.letter(n, q, k, now[q], p) } else { None })
                        .collect();
                    rule.next(n, p, k, now[p], &mailbox)
                })
                .collect(),
        );
    }
    run
}

/// Makes the tally of a list. The states by which send's slips are told are those of the run over all
/// triples, which by the key lemma is the same for rounds already reached; so the triples are made
/// twice: once with the shed's own answers to learn them, and then checked.
pub fn check<R: Rule>(
    rule: &R,
    blank: R::Letter,
    values: &[u16],
    steps: &[Step],
    b: &Buffers<R>,
    shed: &Shed,
    outcomes: &[Option<Refusal>],
) {
    let n = values.len();
    let entries: Vec<Entry> = b.book[..shed.e].iter().map(|w| crate::frames::read_entry(*w)).collect();
    let top = (0..n).map(|p| shed.records[p].round).max().unwrap();
    let run = run_over(rule, values, &entries, top);
    let mut tally = Tally { rounds: vec![0; n], slips: Vec::new(), notes: Vec::new(), triples: Vec::new() };
    for (step, outcome) in steps.iter().zip(outcomes) {
        if outcome.is_some() {
            continue;
        }
        match *step {
            Step::Send(p) => {
                let round = tally.rounds[p];
                for q in 0..n {
                    if rule.letter(n, p, round, run[round as usize][p], q).is_some() {
                        tally.slips.push((p, q, round));
                    }
                }
            }
            Step::Deliver(k) => {
                let (sender, receiver, round) = tally.slips.swap_remove(k);
                if round >= tally.rounds[receiver] {
                    tally.notes.push((receiver, round, sender));
                }
            }
            Step::Drop(k) => {
                tally.slips.swap_remove(k);
            }
            Step::Repeat(k) => tally.slips.push(tally.slips[k]),
            Step::Turn(p) => {
                let round = tally.rounds[p];
                let heard = tally.notes.iter().filter(|(r, k, _)| *r == p && *k == round).fold(Heard(0), |h, (_, _, s)| h.with(*s));
                tally.notes.retain(|(r, k, _)| *r != p || *k != round);
                tally.triples.push(Entry { station: p, round, heard });
                tally.rounds[p] += 1;
            }
            Step::Crash(_) => {}
        }
    }
    // 1. The book.
    assert_eq!(shed.e, tally.triples.len());
    for (i, word) in b.book.iter().enumerate() {
        let wanted = tally.triples.get(i).map_or(0, |t| pack_entry(t).unwrap());
        assert_eq!(*word, wanted, "book word {i}");
    }
    assert_eq!(shed.c, tally.slips.len());
    assert!(b.pool[shed.c..].iter().all(|w| *w == 0));
    // 2. Rounds, 3. refinement, and recount's law.
    for p in 0..n {
        let round = shed.records[p].round;
        assert_eq!(round, tally.rounds[p]);
        assert_eq!(b.states[p], run[round as usize][p], "state of {p}");
    }
    let state = rule.first(1, 0, 0);
    let mut first = vec![state; n];
    let mut second = vec![state; n];
    let mut row = vec![blank; n];
    for p in 0..n {
        let round = shed.records[p].round;
        assert_eq!(recount(rule, values, b.book, round, &mut first, &mut second, &mut row), Ok(round));
        assert_eq!(first[p], b.states[p], "recount of {p}");
    }
    // 4. Agreement, 5. validity.
    let hulls: Vec<u16> = (0..n).filter_map(|p| rule.hull(b.states[p])).collect();
    assert!(hulls.iter().all(|h| *h == hulls[0] && values.contains(h)));
}

#[cfg(test)]
mod tests {
    use super::*;
    use crate::making::make;
    use crate::rules::*;
    use crate::schedule::{read, run_with, RuleName};

    #[test]
    fn the_guarantee_on_made_schedules() {
        let mut checked = 0;
        for index in 0..1500 {
            let (_, text) = make(5, index);
            if text.len() > 12000 {
                continue;
            }
            let Ok(s) = read(&text) else { continue };
            checked += 1;
            match s.rule {
                RuleName::Third => run_with(&Third, ThirdLetter { value: 0 }, &s, |r, b, shed, o| {
                    check(r, ThirdLetter { value: 0 }, &s.values, &s.steps, b, shed, o)
                }),
                RuleName::Last => run_with(&Last, LastLetter { value: 0, stamp: 0 }, &s, |r, b, shed, o| {
                    check(r, LastLetter { value: 0, stamp: 0 }, &s.values, &s.steps, b, shed, o)
                }),
            }
        }
        assert!(checked > 800);
    }
}
