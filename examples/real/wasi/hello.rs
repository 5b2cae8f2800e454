//! An ordinary command in Rust, with `std`: it greets each word among its arguments, then counts the words of its input.

use std::collections::BTreeMap;
use std::io::{self, Read};
use std::{env, process};

fn main() -> io::Result<()> {
    for name in env::args().skip(1) {
        println!("hello, {name}");
    }
    let mut text = String::new();
    io::stdin().read_to_string(&mut text)?;
    let mut counts: BTreeMap<&str, usize> = BTreeMap::new();
    for word in text.split_whitespace() {
        *counts.entry(word).or_default() += 1;
    }
    let unit = env::var("UNIT").unwrap_or_else(|_| "times".to_string());
    for (word, count) in &counts {
        println!("{word}: {count} {unit}");
    }
    if counts.is_empty() {
        eprintln!("no input");
        process::exit(3);
    }
    Ok(())
}
