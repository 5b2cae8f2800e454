//! Counts the words of the input, with maps, sorting and formatted texts of `std`, and writes the most frequent ones.

use std::collections::HashMap;

#[cfg(target_arch = "wasm32")]
mod host {
    #[link(wasm_import_module = "host")]
    extern "C" {
        fn read(to: *mut u8, size: usize) -> usize;
        fn write(from: *const u8, size: usize);
    }

    /// Reads the whole input.
    pub fn input() -> Vec<u8> {
        let mut bytes = Vec::new();
        loop {
            let size = bytes.len();
            bytes.resize(size + 65_536, 0);
            let count = unsafe { read(bytes[size..].as_mut_ptr(), 65_536) };
            bytes.truncate(size + count);
            if count < 65_536 {
                return bytes;
            }
        }
    }

    /// Writes bytes of the output.
    pub fn output(bytes: &[u8]) {
        unsafe { write(bytes.as_ptr(), bytes.len()) }
    }

    /// Runs the program. Returns its status.
    #[no_mangle]
    pub extern "C" fn run(_mode: i32) -> i32 {
        super::run()
    }
}

#[cfg(not(target_arch = "wasm32"))]
mod host {
    use std::io::{self, Read, Write};

    pub fn input() -> Vec<u8> {
        let mut bytes = Vec::new();
        io::stdin().read_to_end(&mut bytes).expect("standard input");
        bytes
    }

    pub fn output(bytes: &[u8]) {
        io::stdout().write_all(bytes).expect("standard output");
    }
}

/// The words of a text, each with how often it occurs, the most frequent first.
fn frequent(text: &str) -> Vec<(&str, u32)> {
    let mut counts = HashMap::new();
    for word in text.split_whitespace() {
        *counts.entry(word).or_insert(0) += 1;
    }
    let mut words: Vec<_> = counts.into_iter().collect();
    words.sort_by(|(word, count), (other, times)| times.cmp(count).then(word.cmp(other)));
    words
}

fn run() -> i32 {
    let bytes = host::input();
    let text = match std::str::from_utf8(&bytes) {
        Ok(text) => text,
        Err(error) => {
            host::output(format!("error: {error}\n").as_bytes());
            return 1;
        }
    };
    let words = frequent(text);
    for (rank, (word, count)) in words.iter().take(1_000).enumerate() {
        host::output(format!("{:>4} {word:<12} {count:>6}\n", rank + 1).as_bytes());
    }
    host::output(format!("{} words, {} different\n", words.iter().map(|(_, count)| count).sum::<u32>(), words.len()).as_bytes());
    0
}

#[cfg(not(target_arch = "wasm32"))]
fn main() {
    std::process::exit(run());
}
