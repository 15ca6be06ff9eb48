//! Samples to a word and back: `cargo run --example samples`.
use yultarvas::{decode, encode, environment, BLOCK};

fn main() -> Result<(), Box<dyn std::error::Error>> {
    environment()?; // before anything rests on the doubles of this thread
    let samples: [f64; BLOCK] = std::array::from_fn(|k| 1.5 * (k as f64 * 0.3).sin());
    let code = encode(&samples)?;
    println!("word={:012x} score={}", code.word, code.score);
    println!("point={:?}", decode(code.word));
    Ok(())
}
