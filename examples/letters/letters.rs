//! Counts how often each letter of a text occurs, with Rust's standard library. The text has to be UTF-8, else it ends with 2.
use std::collections::hash_map::{DefaultHasher, HashMap};
use std::hash::BuildHasherDefault;
use std::io::{self, Read, Write};

/// The standard library looks at the environment as it starts, and there is none: no variables, of no bytes. The definitions stand in
/// the place of the imports.
#[no_mangle]
pub unsafe extern "C" fn __imported_wasi_snapshot_preview1_environ_sizes_get(count: *mut u32, size: *mut u32) -> u32 {
    *count = 0;
    *size = 0;
    0
}

#[no_mangle]
pub extern "C" fn __imported_wasi_snapshot_preview1_environ_get(_variables: *mut u32, _bytes: *mut u8) -> u32 {
    0
}

/// The usual hash map begins with random numbers, and there are none: this one always begins alike.
type Counts = HashMap<char, u32, BuildHasherDefault<DefaultHasher>>;

fn main() {
    let mut text = String::new();
    if io::stdin().read_to_string(&mut text).is_err() {
        std::process::exit(2);
    }
    let mut counts = Counts::default();
    for letter in text.chars().filter(|letter| !letter.is_whitespace()) {
        *counts.entry(letter).or_default() += 1;
    }
    let mut rows: Vec<_> = counts.into_iter().collect();
    rows.sort();
    for (letter, count) in rows {
        if writeln!(io::stdout(), "{letter} {count}").is_err() {
            std::process::exit(1);
        }
    }
}
