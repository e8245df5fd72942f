//! generate SEED COUNT DIR: writes DIR/NNNNNN.schedule and prints what the schedules reach.
//! generate --longest DIR: writes DIR/longest-third.schedule and DIR/longest-last.schedule (65,536 bytes).

use peer::making::{longest, make, KINDS};
use peer::schedule::{listing, RuleName};
use std::collections::BTreeMap;
use std::path::Path;

fn main() {
    let args: Vec<String> = std::env::args().skip(1).collect();
    if args.len() == 2 && args[0] == "--longest" {
        for (rule, name) in [(RuleName::Third, "third"), (RuleName::Last, "last")] {
            std::fs::write(Path::new(&args[1]).join(format!("longest-{name}.schedule")), longest(rule)).unwrap();
        }
        return;
    }
    let [seed, count, dir] = args.as_slice() else {
        eprintln!("generate SEED COUNT DIR | generate --longest DIR");
        std::process::exit(2);
    };
    let seed: u64 = seed.parse().expect("SEED is a number");
    let count: u64 = count.parse().expect("COUNT is a number");
    std::fs::create_dir_all(dir).unwrap();
    let mut kinds = [0usize; KINDS.len()];
    let mut reached: BTreeMap<String, usize> = BTreeMap::new();
    let mut bytes = 0;
    for index in 0..count {
        let (kind, text) = make(seed, index);
        kinds[kind as usize] += 1;
        bytes += text.len();
        let printed = listing(&text);
        // How many schedules reach each refusal, each fault, a hull, a full book.
        let mut seen = std::collections::BTreeSet::new();
        for line in printed.lines() {
            let words: Vec<&str> = line.split(' ').collect();
            match words[0] {
                "line" => seen.insert(format!("refusal {:0>2}", words[3])),
                "fault" => seen.insert(format!("fault {}", words[1])),
                "station" => {
                    seen.insert(format!("a station {}", words[2]));
                    seen.insert(if words[6] == "none" { "a station without hull".into() } else { "a hull".to_string() })
                }
                _ => seen.insert(if words[1] == "1024" { "a full book".into() } else { "a book".to_string() }),
            };
        }
        for what in seen {
            *reached.entry(what).or_default() += 1;
        }
        std::fs::write(Path::new(dir).join(format!("{index:06}.schedule")), text).unwrap();
    }
    let kinds: Vec<String> = KINDS.iter().map(|k| format!("{k:?} {}", kinds[*k as usize])).collect();
    println!("{count} schedules, {bytes} bytes: {}", kinds.join(", "));
    let reached: Vec<String> = reached.iter().map(|(what, times)| format!("{what} {times}")).collect();
    println!("reached by: {}", reached.join(", "));
}
