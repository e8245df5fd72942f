//! The schedule program: a schedule from standard input, a listing to standard output.

use std::io::{Read, Write};

fn main() {
    let mut text = Vec::new();
    // A text longer than 65,536 bytes has its fault whatever the bytes are; one byte more tells it.
    let limit = peer::schedule::LONGEST as u64 + 1;
    let read = std::io::stdin().lock().take(limit).read_to_end(&mut text);
    if read.is_err() || std::io::stdout().write_all(peer::schedule::listing(&text).as_bytes()).is_err() {
        std::process::exit(1);
    }
}
