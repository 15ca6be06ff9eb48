//! Pages through the library's reader. Each line of standard input is a text, each LF of which is shown as
//! `|`; it is answered by a line of the number, the count of blocks and their counts, with commas between
//! them. tests/pages.py puts many such lines: `cargo run --example read`.
use std::io::{self, BufRead, Write};
use yultarvas::{read_page, BLOCK, PAGE_COUNTS};

fn answer(line: &str) -> String {
    let mut counts = [0; PAGE_COUNTS];
    let (number, blocks) = match read_page(line.replace('|', "\n").as_bytes(), &mut counts) {
        Ok(blocks) => (0, blocks),
        Err(refused) => (refused.number(), 0),
    };
    let shown: Vec<String> = counts[..BLOCK * blocks].iter().map(i32::to_string).collect();
    format!("{number} {blocks} {}", shown.join(","))
}

fn main() -> io::Result<()> {
    let mut out = io::BufWriter::new(io::stdout().lock());
    for line in io::stdin().lock().lines() {
        writeln!(out, "{}", answer(&line?))?;
    }
    out.flush()
}
