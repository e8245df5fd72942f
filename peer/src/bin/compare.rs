//! compare PROGRAM PEER DIR: runs both programs on every DIR/*.schedule and compares every byte of
//! standard output and the exit status.

use std::fs::File;
use std::path::Path;
use std::process::{Command, Stdio};

fn run(program: &str, file: &Path) -> (Option<i32>, Vec<u8>) {
    let output = Command::new(program)
        .stdin(Stdio::from(File::open(file).unwrap()))
        .stderr(Stdio::null())
        .output()
        .unwrap_or_else(|error| panic!("{program}: {error}"));
    (output.status.code(), output.stdout)
}

fn main() {
    let args: Vec<String> = std::env::args().skip(1).collect();
    let [program, peer, dir] = args.as_slice() else {
        eprintln!("compare PROGRAM PEER DIR");
        std::process::exit(2);
    };
    let mut files: Vec<_> = std::fs::read_dir(dir)
        .unwrap()
        .map(|entry| entry.unwrap().path())
        .filter(|path| path.extension().is_some_and(|e| e == "schedule"))
        .collect();
    files.sort();
    let mut differ = 0;
    let mut smallest: Option<(u64, &Path)> = None;
    for file in &files {
        let one = run(program, file);
        let two = run(peer, file);
        if one != two {
            differ += 1;
            let size = std::fs::metadata(file).unwrap().len();
            if differ == 1 {
                println!("first that differs: {}", file.display());
                println!("{program}: status {:?}", one.0);
                println!("{peer}: status {:?}", two.0);
                let (a, b) = (String::from_utf8_lossy(&one.1), String::from_utf8_lossy(&two.1));
                let (mut a, mut b) = (a.lines(), b.lines());
                loop {
                    let (x, y) = (a.next(), b.next());
                    if x != y || x.is_none() {
                        println!("  {:?}\n  {:?}", x, y);
                        break;
                    }
                }
            }
            if smallest.is_none_or(|(least, _)| size < least) {
                smallest = Some((size, file));
            }
        }
    }
    println!("{} schedules, {differ} differ", files.len());
    if let Some((size, file)) = smallest {
        println!("smallest that differs: {} ({size} bytes)", file.display());
        std::process::exit(1);
    }
}
