//! A second program for the desk, written from the documents alone: `put`, `hear` and `count` as the handset's own
//! programs of these names, and `make`, which makes inputs for them. See ../README.md.

mod count;
mod fd;
mod hear;
mod make;
mod notation;
mod put;
mod wire;

use std::io::{Read, Write};

fn input() -> Vec<u8> {
    let mut bytes = Vec::new();
    std::io::stdin().read_to_end(&mut bytes).expect("standard input is readable");
    bytes
}

/// What the words ask for, or none where they ask for nothing that there is.
fn output(words: &[&str]) -> Option<Vec<u8>> {
    match words {
        ["put"] => Some(put::run(&input()).into_bytes()),
        ["hear"] => Some(hear::run(&input()).into_bytes()),
        ["count"] => Some(count::run(&input()).into_bytes()),
        ["make", kind, seed, count] => make::run(kind, seed.parse().ok()?, count.parse().ok()?),
        _ => None,
    }
}

fn main() {
    let words: Vec<String> = std::env::args().skip(1).collect();
    let words: Vec<&str> = words.iter().map(String::as_str).collect();
    let bytes = output(&words).unwrap_or_else(|| {
        eprintln!("usage: second put | hear | count | make put|hear|count SEED COUNT");
        std::process::exit(2);
    });
    // A reader that has seen enough may close the pipe.
    let _ = std::io::stdout().write_all(&bytes);
}
