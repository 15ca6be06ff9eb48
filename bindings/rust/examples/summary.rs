//! Summaries beside pages. Each line of standard input is one of
//!
//!     summarise TEXT CELLS
//!     check TEXT CELLS
//!     add TEXT WORD CELLS
//!
//! TEXT is the text's bytes in hexadecimal, CELLS the cells that are lent, with commas between them; `-` is
//! no byte, and no cell. WORD is in hexadecimal. It is answered by a line of the number and, but for `check`,
//! of the count of blocks and the cells, as the call left them; the count was 77 before. It is said where a
//! cell changed that was not lent for writing. tests/summary.py puts many such lines:
//! `cargo run --example summary`.
use std::io::{self, BufRead, Write};
use yultarvas::raw;

/// Cells on either side of those that are lent.
const FENCE: [i32; 8] = [0x5a5a5a5a; 8];

fn bytes(hex: &str) -> Option<Vec<u8>> {
    if hex == "-" {
        return Some(Vec::new());
    }
    let pairs = hex.as_bytes().chunks(2).map(std::str::from_utf8);
    pairs
        .map(|pair| u8::from_str_radix(pair.ok()?, 16).ok())
        .collect()
}

fn numbers(list: &str) -> Option<Vec<i32>> {
    if list == "-" {
        return Some(Vec::new());
    }
    list.split(',').map(|x| x.parse().ok()).collect()
}

fn shown(cells: &[i32]) -> String {
    if cells.is_empty() {
        return "-".to_string();
    }
    let cells: Vec<String> = cells.iter().map(i32::to_string).collect();
    cells.join(",")
}

fn answer(line: &str) -> Option<String> {
    let mut words = line.split(' ');
    let call = words.next()?;
    let text = bytes(words.next()?)?;
    let word = match call {
        "add" => u64::from_str_radix(words.next()?, 16).ok()?,
        _ => 0,
    };
    let cells = numbers(words.next()?)?;
    let mut lent = [&FENCE, &cells[..], &FENCE].concat();
    let rows = &mut lent[FENCE.len()..FENCE.len() + cells.len()];
    let mut blocks = 77;
    // Each pointer is that of a live vector, with its own length; the rows are lent to one call at a time.
    let (t, n, r, m) = (text.as_ptr(), text.len(), rows.as_mut_ptr(), rows.len());
    let number = match call {
        "summarise" => unsafe { raw::yultarvas_summarise(t, n, r, m, &mut blocks) },
        "check" => unsafe { raw::yultarvas_check_summary(t, n, r, m) },
        "add" => unsafe { raw::yultarvas_add_word(t, n, word, r, m, &mut blocks) },
        _ => return None,
    };
    let left = rows.to_vec();
    let said = match call {
        "check" => format!("{number}"),
        _ => format!("{number} {blocks} {}", shown(&left)),
    };
    let kept = lent.starts_with(&FENCE) && lent.ends_with(&FENCE) && (call != "check" || left == cells);
    Some(said + if kept { "" } else { " touched" })
}

fn main() -> io::Result<()> {
    let mut out = io::BufWriter::new(io::stdout().lock());
    for line in io::stdin().lock().lines() {
        let line = line?;
        writeln!(
            out,
            "{}",
            answer(&line).unwrap_or_else(|| format!("no such line: {line}"))
        )?;
    }
    out.flush()
}
