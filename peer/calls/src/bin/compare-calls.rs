//! compare-calls [COUNT] [SEED]: asks the product and the peer COUNT made inputs, compares every number that they reply and
//! leave, and prints what was reached. Ends with status 1 where any differs.

use peer::asking::{answer, ask, Input};
use peer::calls::{run, DELIVER, KINDS, LOOK, RECOUNT};
use peer_calls::product;
use std::collections::{BTreeMap, BTreeSet};

const REFUSALS: [&str; 16] = [
    "none", "Shut", "AlreadyOpen", "ValueCount", "BufferSize", "BufferMismatch", "NoSuchStation", "NoSuchPlace", "Unreadable",
    "StationDown", "AlreadySent", "NotListening", "HoldsLetter", "PoolFull", "BookFull", "LastRound",
];

const FATES: [&str; 4] = ["Late", "Again", "Taken", "Early"];

/// How many inputs reached something, and how often it was reached.
#[derive(Default)]
struct Reached(BTreeMap<String, (usize, usize)>);

impl Reached {
    fn note(&mut self, names: Vec<String>) {
        let distinct: BTreeSet<&String> = names.iter().collect();
        for name in distinct {
            self.0.entry(name.clone()).or_default().0 += 1;
        }
        for name in names {
            self.0.get_mut(&name).unwrap().1 += 1;
        }
    }
}

/// What an input reaches, by the peer.
fn reached(input: &Input, told: &[u64]) -> Vec<String> {
    let rule = if input.rule == 0 { "third" } else { "last" };
    let what = if input.requests.iter().any(|request| request.kind == RECOUNT) { "recounts" } else { "calls" };
    let mut names = vec![format!("input of {what}, {rule}")];
    for (request, reply) in input.requests.iter().zip(told.chunks(2)) {
        let kind = KINDS[request.kind as usize];
        match (reply[0] as usize, reply[1]) {
            (0, fate) if request.kind == DELIVER => names.push(format!("{kind}, {}", FATES[fate as usize])),
            (0, _) => names.push(format!("{kind}, done")),
            (number, _) => {
                names.push(format!("{kind}, refused {number:2}"));
                if request.kind != RECOUNT {
                    names.push(format!("refusal {number:2} {}", REFUSALS[number]));
                }
            }
        }
        if request.kind == LOOK && reply[1] >= 3 * 65536 {
            names.push(format!("look, {rule}, a hull"));
        }
    }
    names
}

fn main() {
    let mut args = std::env::args().skip(1).map(|arg| arg.parse::<u64>().expect("COUNT and SEED are numbers"));
    let count = args.next().unwrap_or(25000);
    let seed = args.next().unwrap_or(1);
    let (mut differ, mut numbers, mut requests, mut first) = (0, 0, 0, None);
    let mut all = Reached::default();
    for index in 0..count {
        let input = ask(seed, index);
        let (peer, product) = (answer(run, &input), answer(product, &input));
        numbers += peer.len();
        requests += input.requests.len();
        all.note(reached(&input, &peer));
        if peer != product {
            differ += 1;
            let place = peer.iter().zip(&product).take_while(|(a, b)| a == b).count();
            let at = input.requests.get(place / 2).map_or("words".to_string(), |request| format!("{request:?}"));
            first.get_or_insert(format!("{index}, at number {place}: {at}"));
        }
    }
    for (name, (inputs, times)) in &all.0 {
        println!("{name:34} in {inputs:6} inputs, {times:8} times");
    }
    println!("{requests} requests, {numbers} numbers compared");
    if let Some(first) = &first {
        println!("first that differs: seed {seed}, input {first}");
    }
    println!("{count} inputs, {differ} differ");
    if differ > 0 {
        std::process::exit(1);
    }
}
