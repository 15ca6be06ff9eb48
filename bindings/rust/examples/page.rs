//! The words and the counts of a trace page: `cargo run --example page -- PAGE`.
use std::{env, fs};
use yultarvas::{parse_page, read_page, BLOCK, PAGE_COUNTS};

fn main() -> Result<(), Box<dyn std::error::Error>> {
    let path = env::args().nth(1).ok_or("usage: page PAGE")?;
    let text = fs::read(path)?;
    let page = parse_page(&text)?;
    let mut counts = [0; PAGE_COUNTS];
    let blocks = read_page(&text, &mut counts)?;
    println!("num={}", page.num());
    for (word, block) in page.words().iter().zip(counts[..BLOCK * blocks].chunks(BLOCK)) {
        println!("word={word:012x} counts={block:?}");
    }
    Ok(())
}
