//! measure-recount none|product|peer third|last: recount of 16 stations over 4,095 rounds and 65,536 words, once, by one side,
//! or not at all, so that the difference of two runs is the call alone. Prints a digest of what the states show.

use peer::calls::{run, Reply, Request, Side, HULL, LETTER, RECOUNT};
use peer::frames::{pack_entry, Entry, Heard};
use peer::making::Rng;
use peer_calls::product;

/// A word for each station in each round, in the order of the rounds; each station hears about three of four.
fn book() -> Vec<u64> {
    let mut rng = Rng::of(1, 0);
    let mut words = Vec::new();
    for round in 0..4096 {
        for station in 0..16 {
            let heard = Heard((rng.word() | rng.word()) as u16);
            words.push(pack_entry(&Entry { station, round, heard }).unwrap());
        }
    }
    words
}

fn nothing(_: u8, _: &[u16], _: &[Request], _: &mut [Reply], _: &mut [u64], _: &mut [u64]) {}

fn main() {
    let args: Vec<String> = std::env::args().skip(1).collect();
    let [side, rule] = args.as_slice() else {
        eprintln!("measure-recount none|product|peer third|last");
        std::process::exit(2);
    };
    let side: Side = match side.as_str() {
        "product" => product,
        "peer" => run,
        _ => nothing,
    };
    let values: Vec<u16> = (0..16).map(|p| 100 + p * 7 % 16).collect();
    let mut book = book();
    let all = Request { n: 16, states: 17, letters: 17, pool: 17, book: book.len(), ..Request::default() };
    let mut requests = vec![Request { kind: RECOUNT, round: 4095, ..all }];
    for p in 0..16 {
        requests.push(Request { kind: HULL, at: p, ..all });
        requests.push(Request { kind: LETTER, at: p, station: p, round: p as u16 * 4, receiver: p, ..all });
    }
    let mut replies = vec![Reply::default(); requests.len()];
    side(if rule == "third" { 0 } else { 1 }, &values, &requests, &mut replies, &mut [], &mut book);
    let digest = replies.iter().fold(0u64, |sum, reply| sum.wrapping_mul(31).wrapping_add(reply.answer as u64));
    println!("{} words, answer {:?}, digest {digest}", book.len(), replies[0]);
}
