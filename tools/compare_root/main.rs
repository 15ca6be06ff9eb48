// Compares the proved root and rounding with the Rust's: f64::sqrt, and z.clamp(-1e6, 1e6).round() as i32.
//
//     bash tools/native.sh float_runs
//     rustc -O tools/compare_root/main.rs -o target/compare_root
//     target/compare_root 12000000 1 crates/float_runs/out/float_runs
//
// The arguments are how many doubles, the seed of the random numbers, and the command that runs the program.
//
// Several may run beside each other, with other seeds. Exit status 0: no difference.
use std::io::{BufRead, BufReader, BufWriter, Write};
use std::process::{Command, Stdio};

const INF: u64 = 0x7ff << 52;

// xorshift64*: the same numbers for the same seed
struct Random(u64);

impl Random {
    fn next(&mut self) -> u64 {
        self.0 ^= self.0 >> 12;
        self.0 ^= self.0 << 25;
        self.0 ^= self.0 >> 27;
        self.0.wrapping_mul(0x2545_f491_4f6c_dd1d)
    }

    fn below(&mut self, n: u64) -> u64 {
        (self.next() >> 11) % n
    }
}

const KINDS: [&str; 6] = [
    "positive, every exponent alike",
    "any 64 bits",
    "subnormal, every length alike",
    "at most one place of the last digit from the square of a double",
    "beside the square of the middle of two doubles",
    "up to two million in size, half of them a half and its neighbours",
];

fn draw(kind: usize, r: &mut Random) -> u64 {
    match kind {
        0 => r.below(2047) << 52 | r.next() >> 12,
        1 => r.next(),
        2 => {
            let length = 1 + r.below(52);
            1 << (length - 1) | r.next() & ((1 << (length - 1)) - 1)
        }
        3 => {
            let root = f64::from_bits((500 + r.below(1000)) << 52 | r.next() >> 12);
            ((root * root).to_bits() + r.below(3)).saturating_sub(1).min(INF - 1)
        }
        4 => {
            // r * r + r is the square of r + 1/2, but for a quarter; its first 53 digits, or one more
            let r53 = 1 << 52 | r.below(1 << 52);
            let square = r53 as u128 * (r53 + 1) as u128;
            let cut = 75 - square.leading_zeros();
            let digits = (square >> cut) as u64 + r.below(2);
            (digits as f64).to_bits() + ((cut as u64) << 52) - (r.below(500) << 53)
        }
        _ => {
            let size = r.below(2_000_000) as f64;
            let b = if r.below(2) == 0 { (size + 0.5).to_bits() + r.below(3) - 1 } else { (size * (r.below(1 << 30) as f64 / (1 << 30) as f64)).to_bits() };
            b | r.below(2) << 63
        }
    }
}

// what the program has to write for these bits
fn expected(b: u64) -> String {
    let x = f64::from_bits(b);
    let k = x.clamp(-1e6, 1e6).round() as i32;
    let refused = x.is_nan() || x == f64::INFINITY || x < 0.0;
    if refused {
        format!("7 0000000000000000 {k}")
    } else {
        format!("0 {:016x} {k}", x.sqrt().to_bits())
    }
}

fn main() {
    let words: Vec<String> = std::env::args().collect();
    let numbers: Vec<u64> = words.iter().skip(1).take(2).filter_map(|a| a.parse().ok()).collect();
    if numbers.len() != 2 || words.len() < 4 {
        eprintln!("compare_root COUNT SEED COMMAND ..");
        std::process::exit(2);
    }
    let (count, seed) = (numbers[0], numbers[1]);
    let start = seed.wrapping_mul(0x9e37_79b9_7f4a_7c15) | 1;
    let mut program = Command::new(&words[3]).args(&words[4..]).stdin(Stdio::piped()).stdout(Stdio::piped()).spawn().expect("the program runs");
    let mut input = BufWriter::new(program.stdin.take().unwrap());
    let writer = std::thread::spawn(move || {
        let mut r = Random(start);
        for i in 0..count {
            writeln!(input, "{:016x}", draw((i % 6) as usize, &mut r)).expect("the program reads");
        }
    });
    let mut r = Random(start);
    let (mut roots, mut refused, mut differ, mut by_kind) = (0u64, 0u64, 0u64, [0u64; 6]);
    let mut lines = BufReader::with_capacity(1 << 16, program.stdout.take().unwrap()).lines();
    for i in 0..count {
        let kind = (i % 6) as usize;
        let b = draw(kind, &mut r);
        let got = lines.next().expect("a line for each double").expect("text");
        let want = expected(b);
        if got != want {
            differ += 1;
            if differ <= 10 {
                println!("{b:016x}: wrote {got}, the Rust has {want}");
            }
        }
        if want.starts_with('7') { refused += 1 } else { roots += 1 }
        by_kind[kind] += 1;
    }
    writer.join().unwrap();
    assert!(lines.next().is_none(), "no line more");
    for (n, kind) in by_kind.iter().zip(KINDS) {
        println!("{n} {kind}");
    }
    println!("seed {seed}: {count} doubles, {roots} roots, {refused} refused, {count} roundings, {differ} differences");
    std::process::exit(if differ == 0 { 0 } else { 1 });
}
