//! Counts how often each letter of a text occurs, as one may write it first. It is refused: its hash map asks for random numbers, and the
//! standard library for the environment. examples/letters is the mended one.
use std::collections::HashMap;
use std::io::{self, Read};

fn main() {
    let mut text = String::new();
    if io::stdin().read_to_string(&mut text).is_err() {
        std::process::exit(2);
    }
    let mut counts = HashMap::new();
    for letter in text.chars().filter(|letter| !letter.is_whitespace()) {
        *counts.entry(letter).or_insert(0) += 1;
    }
    let mut rows: Vec<(char, u32)> = counts.into_iter().collect();
    rows.sort();
    for (letter, count) in rows {
        println!("{letter} {count}");
    }
}
