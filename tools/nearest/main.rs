//! Targets near the decision boundary of the Leech lattice, with the nearest lattice point of each, found exactly.
//!
//!   nearest_points SEED COUNT REQUESTS POINTS [even]
//!
//! writes COUNT requests `scale N S X0 .. X23` (N is the setting of the shrinks, a double the 16 hex digits of its bits) and, line by line,
//! the point that each must be answered with. Build: rustc -O tools/nearest/main.rs -o target/nearest_points. The script compare.sh beside this
//! file puts the requests to a program.
//!
//! A target is 24 whole multiples of 2^-48 below 16 in magnitude, so each is a double and all sums below are exact. It lies beside the middle
//! of two lattice points y and y + v, v of squared length 32 or 48, moved off the line between them at random, and so far toward y that y + v
//! is further by a wanted margin. The decoder knows nothing of y and v: it finds the nearest lattice point and the distance of the second
//! nearest by going through all 2 x 4,096 classes of one parity and one codeword. Kept are the targets whose nearest point has a word and is
//! nearer than every other by more than 2^-20 and by at most 2^-18. Nothing here is taken from the Rust or from our code: the code comes from
//! the twelve columns, ranks by counting, bounds from their cost and cut.
//!
//! With `even` the same is done for the lattice points with even coordinates alone: the requests are `escale ..`, y and v are even, and the decoder
//! goes through the 4,096 classes of parity 0. An odd lattice point may then be nearer than y, and where it has a word a search of both parities does
//! not answer y. To have many such targets, half of all are moved toward an odd lattice point that is as far from y as from y + v. Counted are the
//! targets with an odd point that is nearer, and those of them where the nearest odd point has a word.
use std::io::Write;
use std::ops::Range;

const UNIT: i128 = 1 << 48; // one, in units
const MARGIN: i128 = 1 << 76; // 2^-20, in squared units
const WIDEST: i128 = 1 << 78; // 2^-18

const COLUMNS: [u32; 12] = [
    0x2d002e, 0x3a005a, 0x740033, 0x03061e, 0x050963, 0x090578, 0x0000ff, 0x2d1d00, 0x3a2b00, 0x744700, 0x638e00, 0xff0000,
];
const OCTADS: [u32; 3] = [0x00149f, 0x0f6840, 0xf08320];

type Point = [i64; 24];

struct Rng(u64);
impl Rng {
    fn next(&mut self) -> u64 {
        self.0 = self.0.wrapping_add(0x9e3779b97f4a7c15);
        let mut z = self.0;
        z = (z ^ (z >> 30)).wrapping_mul(0xbf58476d1ce4e5b9);
        z = (z ^ (z >> 27)).wrapping_mul(0x94d049bb133111eb);
        z ^ (z >> 31)
    }
    fn below(&mut self, n: u64) -> u64 { self.next() % n }
    fn unit(&mut self) -> f64 { (self.next() >> 11) as f64 / 9007199254740992.0 }
}

struct Leech { order: Vec<usize>, words: Vec<u32>, is_word: Vec<bool>, octads: Vec<u32> }

impl Leech {
    fn new() -> Self {
        let order = OCTADS.iter().flat_map(|o| (0..24).filter(move |i| o >> i & 1 == 1)).collect();
        let words: Vec<u32> = (0..4096u32).map(|x| (0..12).filter(|i| x >> i & 1 == 1).fold(0, |w, i| w ^ COLUMNS[i])).collect();
        let mut is_word = vec![false; 1 << 24];
        for w in &words { is_word[*w as usize] = true; }
        let count = |n: u32| words.iter().filter(|w| w.count_ones() == n).count();
        assert_eq!([count(0), count(8), count(12), count(16), count(24)], [1, 759, 2576, 759, 1]);
        let octads = words.iter().copied().filter(|w| w.count_ones() == 8).collect();
        Self { order, words, is_word, octads }
    }

    /// all coordinates of one parity, the bits a codeword, the sum of k of that parity
    fn contains(&self, y: &Point) -> bool {
        let p = y[0].rem_euclid(2);
        let bits = (0..24).fold(0u32, |b, j| b | (((y[self.order[j]].div_euclid(2)).rem_euclid(2) as u32) << j));
        let sum: i64 = y.iter().map(|v| v.div_euclid(4)).sum();
        y.iter().all(|v| v.rem_euclid(2) == p) && self.is_word[bits as usize] && sum.rem_euclid(2) == p
    }

    /// besides, the first and third sections meet their own class's bound and the second the middle's
    fn has_word(&self, y: &Point) -> bool {
        let ranks = |s: usize| -> Vec<i64> { (0..8).map(|j| rank(y[self.order[8 * s + j]])).collect() };
        self.contains(y) && own(&ranks(0)) && within(&ranks(1), 72, [3, 0, 0, 0, 1, 0, 1, 0]) && own(&ranks(2))
    }

    /// coordinate order[j] by place j
    fn placed(&self, f: impl Fn(usize) -> i64) -> Point {
        let mut y = [0; 24];
        for j in 0..24 { y[self.order[j]] = f(j); }
        y
    }
}

/// how many members of y's own o + 4Z come before y, outward from zero, the positive one first
fn rank(y: i64) -> i64 {
    (-40i64..=40).filter(|z| (z - y).rem_euclid(4) == 0 && (z.abs() < y.abs() || (*z == -y && y < 0))).count() as i64
}

fn within(r: &[i64], most: i64, cut: [i64; 8]) -> bool {
    let cost: i64 = r.iter().map(|v| (2 * v + 1) * (2 * v + 1)).sum();
    cost < most || (cost == most && r <= &cut[..])
}

fn own(r: &[i64]) -> bool {
    let class = r.iter().map(|v| (v + 1) / 2).sum::<i64>() % 2;
    if class == 0 { within(r, 88, [1, 1, 0, 3, 0, 0, 1, 1]) } else { within(r, 96, [0, 0, 2, 2, 2, 0, 1, 1]) }
}

// ---- the decoder
/// the four members of o + 4Z about a target, the lower one of the middle two at index 1, and their squared distances
#[derive(Clone, Copy)]
struct Near { k: i64, d: [i128; 4], least: i128 }

fn near(t: i64, o: i64) -> Near {
    let k = (t - o * UNIT as i64).div_euclid(4 * UNIT as i64);
    let gap = |n: i64| -> i128 { let g = (o + 4 * n) as i128 * UNIT - t as i128; g * g };
    let d = [gap(k - 1), gap(k), gap(k + 1), gap(k + 2)];
    Near { k, d, least: d[1].min(d[2]) }
}

struct Found { point: Point, least: i128, second: i128 }

/// the two least sums over one choice of k for each coordinate with a sum of k of parity p, and the choice of the least.
/// For each parity the two nearest k of a coordinate are among its four.
fn class(ns: &[Near], p: i64) -> (Vec<i64>, i128, i128) {
    let far = i128::MAX / 4;
    // of each parity so far: the least sum with its choice, and the second least
    let mut best = [(0, 0u64), (far, 0)];
    let mut next = [far, far];
    for (j, n) in ns.iter().enumerate() {
        let (mut b, mut s) = ([(far, 0u64); 2], [far; 2]);
        for (i, d) in n.d.iter().enumerate() {
            let turn = (n.k + i as i64 - 1).rem_euclid(2) as usize;
            for q in 0..2 {
                let to = q ^ turn;
                for (sum, path) in [(best[q].0 + d, best[q].1 | (i as u64) << (2 * j)), (next[q] + d, u64::MAX)] {
                    if sum < b[to].0 { s[to] = b[to].0; b[to] = (sum, path); } else if sum < s[to] { s[to] = sum; }
                }
            }
        }
        best = b;
        next = s;
    }
    let (sum, path) = best[p as usize];
    ((0..ns.len()).map(|j| ns[j].k + (path >> (2 * j) & 3) as i64 - 1).collect(), sum, next[p as usize])
}

/// the nearest point among those of the parities
fn decode(l: &Leech, t: &Point, parities: Range<usize>) -> Found {
    // by place and remainder; and the sums of the least over a section, by parity, section and byte
    let nears: Vec<[Near; 4]> = (0..24).map(|j| [0, 1, 2, 3].map(|o| near(t[l.order[j]], o))).collect();
    let under = |p: usize, s: usize, c: usize| -> i128 { (0..8).map(|j| nears[8 * s + j][p + 2 * (c >> j & 1)].least).sum() };
    let tables: Vec<i128> = (0..6 * 256).map(|i| under(i / 768, i / 256 % 3, i % 256)).collect();
    let bound = |i: usize| -> i128 {
        let (p, w) = (i / 4096, l.words[i % 4096] as usize);
        tables[768 * p + (w & 255)] + tables[768 * p + 256 + (w >> 8 & 255)] + tables[768 * p + 512 + (w >> 16)]
    };
    let bounds: Vec<i128> = (0..8192).map(bound).collect();
    let classes = 4096 * parities.start..4096 * parities.end;
    let start = classes.clone().min_by_key(|i| bounds[*i]).unwrap();
    let mut found = Found { point: [0; 24], least: i128::MAX / 4, second: i128::MAX / 4 };
    for i in std::iter::once(start).chain(classes.filter(|i| *i != start)) {
        if bounds[i] >= found.second { continue; }
        let (p, w) = (i / 4096, l.words[i % 4096]);
        let o = |j: usize| p + 2 * (w >> j & 1) as usize;
        let ns: Vec<Near> = (0..24).map(|j| nears[j][o(j)]).collect();
        let (k, least, second) = class(&ns, p as i64);
        if least < found.least {
            found = Found { point: l.placed(|j| o(j) as i64 + 4 * k[j]), least, second: second.min(found.least) };
        } else {
            found.second = found.second.min(least);
        }
    }
    found
}

/// the exact squared distance
fn distance(y: &Point, t: &Point) -> i128 { (0..24).map(|i| { let g = y[i] as i128 * UNIT - t[i] as i128; g * g }).sum() }

/// what was found is a lattice point at that distance, and none of the 196,560 points about it, or of the even ones alone, is nearer than the second
fn sound(l: &Leech, all: &[Vec<Point>], t: &Point, f: &Found, thorough: bool) -> bool {
    let about = |v: &Point| -> Point { core::array::from_fn(|i| f.point[i] + v[i]) };
    l.contains(&f.point) && distance(&f.point, t) == f.least
        && (!thorough || all.iter().flatten().all(|v| distance(&about(v), t) >= f.second))
}

// ---- the targets
/// half of them odd, or none; once in three the whole numbers k are drawn further out, to reach the edges of the bounds
fn point_with_word(l: &Leech, r: &mut Rng, even: bool) -> Point {
    let (p, wide) = (if even { 0 } else { r.below(2) as i64 }, r.below(3) == 0);
    loop {
        let w = l.words[r.below(4096) as usize];
        let k: Vec<i64> = (0..24)
            .map(|_| match r.below(if wide { 14 } else { 40 }) { 0 | 1 => 1, 2..=4 => -1, 5 => 2, 6 => -2, _ => 0 })
            .collect();
        let y = l.placed(|j| p + 2 * (w >> j & 1) as i64 + 4 * k[j]);
        if l.has_word(&y) { return y; }
    }
}

/// the 196,560 lattice vectors of squared length 32: two 4, or 2 over an octad with an even number of minus signs, or a 3 and 23 ones
fn shortest(l: &Leech) -> [Vec<Point>; 3] {
    let sign = |b: u32| if b & 1 == 1 { -1i64 } else { 1 };
    let pairs = (0..24usize).flat_map(|a| (0..a).flat_map(move |b| (0..4u32).map(move |s| (a, b, s))));
    let fours = pairs.map(|(a, b, s)| l.placed(|j| if j == a { 4 * sign(s) } else if j == b { 4 * sign(s >> 1) } else { 0 })).collect();
    let mut twos = Vec::new();
    for o in &l.octads {
        let at: Vec<usize> = (0..24).filter(|j| o >> j & 1 == 1).collect();
        for s in (0..256u32).filter(|s| s.count_ones() % 2 == 0) {
            twos.push(l.placed(|j| at.iter().position(|i| *i == j).map_or(0, |i| 2 * sign(s >> i))));
        }
    }
    let ones = (0..24usize).flat_map(|a| l.words.iter().map(move |w| (a, *w)));
    let threes = ones.map(|(a, w)| l.placed(|j| (if j == a { -3 } else { 1 }) * sign(w >> j))).collect();
    let all: [Vec<Point>; 3] = [fours, twos, threes];
    assert_eq!(all.iter().map(Vec::len).sum::<usize>(), 196_560);
    assert!(all.iter().flatten().all(|v| l.contains(v) && square(v) == 32));
    all
}

/// the even ones are the first two kinds
fn kinds(all: &[Vec<Point>; 3], even: bool) -> &[Vec<Point>] { if even { &all[..2] } else { &all[..] } }

fn square(v: &Point) -> i64 { v.iter().map(|c| c * c).sum() }

/// of squared length 32, each of the kinds alike, and of 48 once in four
fn step(all: &[Vec<Point>], r: &mut Rng) -> Point {
    let wanted = if r.below(4) == 0 { 48 } else { 32 };
    let mut pick = || { let kind = &all[r.below(all.len() as u64) as usize]; kind[r.below(kind.len() as u64) as usize] };
    loop {
        let (a, b) = (pick(), pick());
        let v: Point = if wanted == 32 { a } else { core::array::from_fn(|i| a[i] + b[i]) };
        if square(&v) == wanted { return v; }
    }
}

/// a way from the middle of 0 and v toward an odd lattice point u as far from both: u . v is half of v . v, so the way is square to v. At its end, on
/// u, many even points are equally near; short of it 0 and v are.
fn toward_odd(threes: &[Point], v: &Point, r: &mut Rng) -> [f64; 24] {
    let part = 0.9 * r.unit();
    loop {
        let u = threes[r.below(threes.len() as u64) as usize];
        let dot: i64 = (0..24).map(|i| u[i] * v[i]).sum();
        if 2 * dot == square(v) { return core::array::from_fn(|i| part * (u[i] as f64 - v[i] as f64 / 2.0)); }
    }
}

/// a target, in units, about wanted units nearer to y than to y + v, moved the way, each coordinate a multiple of grain
fn target(y: &Point, v: &Point, way: &[f64; 24], r: &mut Rng, wanted: i64, grain: i64) -> Point {
    let (one, spread) = (UNIT as i64, [0.0, 0.1, 0.3, 0.5, 0.8][r.below(5) as usize]);
    let n = square(v) as f64;
    let off: Vec<f64> = (0..24).map(|i| way[i] + spread * (2.0 * r.unit() - 1.0)).collect();
    let along: f64 = (0..24).map(|i| v[i] as f64 * off[i]).sum::<f64>() / n;
    let part = |i: usize| (v[i] as f64 * (0.5 - along) + off[i]) * one as f64;
    let mut e: Point = core::array::from_fn(|i| (part(i) / grain as f64).round() as i64 * grain);
    // what is left over goes to the coordinate of v that moves the distances least
    let at = (0..24).filter(|i| v[*i] != 0).min_by_key(|i| v[*i].abs()).unwrap();
    let now: i64 = (0..24).map(|i| v[i] * e[i]).sum();
    let goal = (square(v) * one - wanted) / 2;
    e[at] -= (now - goal) / (v[at] * grain) * grain;
    core::array::from_fn(|i| y[i] * one + e[i])
}

const SCALES: [f64; 6] = [1.0, 2.0, 0.5, 3.0, 5.0, 7.0];

struct Drawn { y: Point, t: Point, scale: usize }

/// a target beside the middle of y and a neighbour, and a scale: 1 in seven of twelve. For 3, 5 and 7 the target has four digits less, so that
/// the samples are doubles too. Every fourth margin is as little above 2^-20 as can be, the others lie between 2^-20 and 2^-18, every length alike.
fn draw(l: &Leech, all: &[Vec<Point>; 3], r: &mut Rng, even: bool) -> Drawn {
    let (y, v) = (point_with_word(l, r, even), step(kinds(all, even), r));
    let way = if even && r.below(2) == 0 { toward_odd(&all[2], &v, r) } else { [0.0; 24] };
    let scale = if r.below(2) == 0 { 0 } else { r.below(6) as usize };
    let wanted = if r.below(4) == 0 { (1 << 28) + 16 } else { ((1u64 << 28) as f64 * 4f64.powf(r.unit())) as i64 };
    Drawn { y, t: target(&y, &v, &way, r, wanted, if scale < 3 { 1 } else { 16 }), scale }
}

#[derive(Default)]
struct Tally {
    tried: u64, kept: u64, odd: u64, beyond: u64, in_reach: u64, narrow: u64, close: u64, other: u64,
    by_setting: [u64; 8], by_scale: [u64; 6],
}

impl Tally {
    fn show(&self, seed: u64, even: bool) {
        println!("seed {seed}: {} targets kept of {} tried, all with margins above 2^-20 and up to 2^-18", self.kept, self.tried);
        println!("nearest point odd {}, even {}; not the point that the target was made for {}", self.odd, self.kept - self.odd, self.other);
        if even { println!("an odd lattice point is nearer: {}, the nearest of which has a word: {}", self.beyond, self.in_reach); }
        println!("margin within a thousandth of 2^-20: {}; within a tenth: {}", self.narrow, self.close);
        println!("by setting 1 to 8: {:?}; by scale {SCALES:?}: {:?}", self.by_setting, self.by_scale);
    }
}

fn main() -> std::io::Result<()> {
    let args: Vec<String> = std::env::args().collect();
    let even = args.get(5).is_some_and(|word| word == "even");
    if args.len() != 5 + even as usize { eprintln!("nearest_points SEED COUNT REQUESTS POINTS [even]"); std::process::exit(2); }
    let (seed, count): (u64, u64) = (args[1].parse().expect("a seed"), args[2].parse().expect("a count"));
    let file = |i: usize| std::fs::File::create(&args[i]).map(std::io::BufWriter::new);
    let (mut requests, mut points) = (file(3)?, file(4)?);
    let (l, mut r, mut tally) = (Leech::new(), Rng(seed), Tally::default());
    let all = shortest(&l);
    let (name, parities) = if even { ("escale", 0..1) } else { ("scale", 0..2) };
    while tally.kept < count {
        tally.tried += 1;
        let Drawn { y, t, scale } = draw(&l, &all, &mut r, even);
        let found = decode(&l, &t, parities.clone());
        assert!(sound(&l, kinds(&all, even), &t, &found, tally.tried % 1000 == 0));
        assert!(!even || found.point.iter().all(|c| c % 2 == 0));
        let margin = found.second - found.least;
        if margin <= MARGIN || margin > WIDEST || !l.has_word(&found.point) { continue; }
        let (s, setting) = (SCALES[scale], tally.kept % 8 + 1);
        let x: Vec<f64> = t.iter().map(|c| *c as f64 / UNIT as f64 * s).collect();
        assert!((0..24).all(|i| t[i].abs() < 1 << 52 && (x[i] / s * UNIT as f64) as i64 == t[i]));
        let hex: Vec<String> = x.iter().map(|c| format!("{:016x}", c.to_bits())).collect();
        writeln!(requests, "{name} {setting} {:016x} {}", s.to_bits(), hex.join(" "))?;
        writeln!(points, "{}", found.point.map(|c| c.to_string()).join(","))?;
        tally.kept += 1;
        tally.odd += found.point[0].rem_euclid(2) as u64;
        if even {
            let rival = decode(&l, &t, 1..2);
            tally.beyond += (rival.least < found.least) as u64;
            tally.in_reach += (rival.least < found.least && l.has_word(&rival.point)) as u64;
        }
        tally.narrow += (margin <= MARGIN + MARGIN / 1000) as u64;
        tally.close += (margin <= MARGIN + MARGIN / 10) as u64;
        tally.other += (found.point != y) as u64;
        tally.by_setting[setting as usize - 1] += 1;
        tally.by_scale[scale] += 1;
    }
    tally.show(seed, even);
    Ok(())
}
