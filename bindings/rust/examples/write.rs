//! Pages of whole samples. Each line of standard input is `NUM COUNT ROOM SAMPLES`, the samples with commas
//! between them or `-` for none; it is answered by a line of the number, the block, the length and the text,
//! each LF of which is shown as `|`. ROOM bytes are lent for the text, and it is said where a byte of them
//! changed that should not have. tests/written.py puts many such lines: `cargo run --example write`.
use std::io::{self, BufRead, Write};
use yultarvas::{write_page, RefusedAt};

fn answer(line: &str) -> Option<String> {
    let mut words = line.split(' ');
    let num = words.next()?.parse().ok()?;
    let count = words.next()?.parse().ok()?;
    let room = words.next()?.parse().ok()?;
    let samples: Option<Vec<i32>> = match words.next()? {
        "-" => Some(Vec::new()),
        list => list.split(',').map(|x| x.parse().ok()).collect(),
    };
    let mut text = vec![b'#'; room];
    let (number, block, length) = match write_page(num, count, &samples?, &mut text) {
        Ok(length) => (0, 0, length),
        Err(RefusedAt { refused, block }) => (refused.number(), block, 0),
    };
    let kept = text[length..].iter().all(|b| *b == b'#');
    let shown = String::from_utf8_lossy(&text[..length]).replace('\n', "|");
    Some(format!(
        "{number} {block} {length} {shown}{}",
        if kept { "" } else { " touched" }
    ))
}

fn main() -> io::Result<()> {
    let mut out = io::BufWriter::new(io::stdout().lock());
    for line in io::stdin().lock().lines() {
        let line = line?;
        writeln!(
            out,
            "{}",
            answer(&line).unwrap_or_else(|| format!("no such line: {line}"))
        )?;
    }
    out.flush()
}
