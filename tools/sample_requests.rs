//! Prints requests of samples that are hard on an encoder: whole numbers, halves and their neighbours, ties, spikes, subnormal and huge ones.
//!
//!     rustc -O tools/sample_requests.rs -o target/sample_requests
//!     target/sample_requests SEED N
//!     target/sample_requests SEED N quiet|noisy
//!
//! Each of N turns is one block, printed as a `scale` request at a scale of its own and as an `auto` request. The settings go round from 1 to 9.
//! With a third word the blocks are those that speed is measured on, as `auto` requests at setting 8: quiet ones run along a slow wave with a
//! hundredth of it as noise, noisy ones are noise alone.
use std::io::Write;

struct Rng(u64);

impl Rng {
    fn next(&mut self) -> u64 {
        self.0 = self.0.wrapping_add(0x9e37_79b9_7f4a_7c15);
        let z = (self.0 ^ (self.0 >> 30)).wrapping_mul(0xbf58_476d_1ce4_e5b9);
        let z = (z ^ (z >> 27)).wrapping_mul(0x94d0_49bb_1331_11eb);
        z ^ (z >> 31)
    }
    fn below(&mut self, n: u64) -> u64 {
        self.next() % n
    }
    fn unit(&mut self) -> f64 {
        (self.next() >> 11) as f64 / 9007199254740992.0
    }
    fn normal(&mut self) -> f64 {
        (0..12).map(|_| self.unit()).sum::<f64>() - 6.0
    }
    /// A whole number from -m to m.
    fn whole(&mut self, m: u64) -> f64 {
        self.below(2 * m + 1) as f64 - m as f64
    }
}

/// x, or one of the two doubles beside it.
fn beside(r: &mut Rng, x: f64) -> f64 {
    if x == 0.0 {
        return x;
    }
    match r.below(3) {
        0 => f64::from_bits(x.to_bits() + 1),
        1 => f64::from_bits(x.to_bits() - 1),
        _ => x,
    }
}

/// A block and a scale for it.
fn block(r: &mut Rng, shape: u64) -> ([f64; 24], f64) {
    let mut x = [0.0; 24];
    let wide = [1, 2, 4, 8, 16][r.below(5) as usize];
    let (a, b) = (r.normal() * 4.0, r.normal() * 4.0);
    let size = 10f64.powi(r.below(600) as i32 - 310);
    for (j, v) in x.iter_mut().enumerate() {
        *v = match shape {
            0 => r.whole(wide),
            1 => r.whole(2 * wide) * 0.5,
            2 => { let h = r.whole(2 * wide) * 0.5; beside(r, h) }
            3 => 2.0 * r.whole(wide) + (wide % 2) as f64,
            4 => { let t = 4.0 * r.whole(2) + 2.0; beside(r, t) }
            5 => if r.below(12) == 0 { r.whole(1_000_000) } else { 0.0 },
            6 => if r.below(12) == 0 { r.normal() * 1e5 } else { r.normal() },
            7 => { let bits = 1 + r.below(52); f64::from_bits(r.below(1 << bits)) * [1.0, -1.0][r.below(2) as usize] }
            8 => r.whole(1000) * 1e287,
            9 => [a, -a, b, a + b][(j as u64 * wide % 4) as usize],
            10 => [1.0, -1.0][r.below(2) as usize] * a,
            11 => [0.0, -0.0, 1.0, -1.0][r.below(4) as usize],
            12 => r.normal() * size,
            13 => r.normal() * 1e6 / 3.0,
            _ => r.normal() * [0.05, 0.3, 1.0, 2.0, 3.0, 5.0][r.below(6) as usize],
        };
    }
    let m = x.iter().fold(0.0f64, |a, v| a.max(v.abs()));
    let scale = match (shape, r.below(4)) {
        (7 | 8 | 12, 0) => m / 1e6,
        (7 | 8 | 12, _) => m / [3.0, 5.0, 8.0, 12.0][r.below(4) as usize],
        (13, _) => 1.0,
        (_, 0) => 0.25 + r.unit() * 4.0,
        (_, 1) => [0.5, 2.0, 0.25, 1.5][r.below(4) as usize],
        _ => 1.0,
    };
    (x, scale)
}

/// A block of a trace.
fn trace(r: &mut Rng, quiet: bool) -> [f64; 24] {
    let (size, phase, step) = (100.0 + 900.0 * r.unit(), 6.3 * r.unit(), 0.02 + 0.2 * r.unit());
    core::array::from_fn(|j| if quiet { size * ((phase + step * j as f64).sin() + 0.01 * r.normal()) } else { size * r.normal() })
}

fn main() {
    let words: Vec<String> = std::env::args().skip(1).collect();
    let args: Vec<u64> = words.iter().take(2).filter_map(|a| a.parse().ok()).collect();
    if args.len() != 2 || words.len() > 3 || words.get(2).is_some_and(|kind| kind != "quiet" && kind != "noisy") {
        eprintln!("sample_requests SEED N [quiet|noisy]");
        std::process::exit(2);
    }
    let mut r = Rng(args[0]);
    let mut out = std::io::BufWriter::new(std::io::stdout().lock());
    if let Some(kind) = words.get(2) {
        for _ in 0..args[1] {
            let samples = trace(&mut r, kind == "quiet").map(|v| format!("{:016x}", v.to_bits())).join(" ");
            writeln!(out, "auto 8 {samples}").unwrap();
        }
        return;
    }
    for i in 0..args[1] {
        let (x, scale) = block(&mut r, i % 16);
        let samples = x.map(|v| format!("{:016x}", v.to_bits())).join(" ");
        let setting = 1 + i / 16 % 9;
        writeln!(out, "scale {setting} {:016x} {samples}", scale.to_bits()).unwrap();
        writeln!(out, "auto {setting} {samples}").unwrap();
    }
}
