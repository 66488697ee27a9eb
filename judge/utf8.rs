// A row of bytes in hex on each line of standard input; `yes` where Rust's standard library takes it for UTF-8, else `no`.
use std::io::{self, BufRead, Write};

fn main() {
    let mut out = io::BufWriter::new(io::stdout());
    for line in io::stdin().lock().lines() {
        let line = line.unwrap();
        let row: Vec<u8> = (0..line.len() / 2)
            .map(|i| u8::from_str_radix(&line[2 * i..2 * i + 2], 16).unwrap())
            .collect();
        let word: &[u8] = if std::str::from_utf8(&row).is_ok() { b"yes\n" } else { b"no\n" };
        out.write_all(word).unwrap();
    }
}
