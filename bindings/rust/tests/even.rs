//! The even profile: the examples of request 2026-06; and, over words, points, pages and samples that are
//! drawn, that it refuses with 13 exactly what is odd, in the order of the refusals, leaves every cell as it
//! was where it refuses, and otherwise answers as the full coder.
use yultarvas::{
    decode, encode_at_scale, encode_point, encode_with, even, lower_scale, parse_page, raw, read_page, t_of,
    Code, Refused, PAGE_COUNTS,
};

const FILLED: i32 = -77; // in each cell that a call may write
const BEFORE: usize = 77; // in the cell of the count

/// Numbers that look drawn and are the same in each run (splitmix64).
struct Drawn(u64);

impl Drawn {
    fn next(&mut self) -> u64 {
        self.0 = self.0.wrapping_add(0x9e3779b97f4a7c15);
        let mut z = self.0;
        z = (z ^ (z >> 30)).wrapping_mul(0xbf58476d1ce4e5b9);
        z = (z ^ (z >> 27)).wrapping_mul(0x94d049bb133111eb);
        z ^ (z >> 31)
    }

    fn below(&mut self, n: usize) -> usize {
        (self.next() % n as u64) as usize
    }

    fn of<T: Copy>(&mut self, list: &[T]) -> T {
        list[self.below(list.len())]
    }

    /// From -1 to 1.
    fn unit(&mut self) -> f64 {
        (self.next() >> 10) as f64 / (1u64 << 53) as f64 - 1.0
    }
}

// ---- the calls as the library has them: each leaves what was lent, which is held to the safe call

/// The number, and the point that is left.
fn decoded(word: u64, places: usize) -> (u32, Vec<i32>) {
    let mut y = vec![FILLED; places];
    let number = unsafe { raw::yultarvas_even_decode(word, y.as_mut_ptr(), y.len()) };
    (number, y)
}

/// The word, or the refusal, after which the cell of the word is as it was.
fn encoded(y: &[i32; 24]) -> Result<u64, Refused> {
    let mut word = BEFORE as u64;
    let number = unsafe { raw::yultarvas_even_encode_point(y.as_ptr(), 24, &mut word) };
    let safe = even::encode_point(y);
    match safe {
        Ok(w) => assert_eq!((number, word), (0, w)),
        Err(refused) => assert_eq!((number, word), (refused.number(), BEFORE as u64)),
    }
    safe
}

/// The number, the count and the cells that are left.
fn read(text: &[u8], places: usize) -> (u32, usize, Vec<i32>) {
    let (mut cells, mut again, mut blocks) = (vec![FILLED; places], vec![FILLED; places], BEFORE);
    let number = unsafe {
        raw::yultarvas_even_read_page(text.as_ptr(), text.len(), cells.as_mut_ptr(), places, &mut blocks)
    };
    match even::read_page(text, &mut again) {
        Ok(n) => assert_eq!((number, blocks), (0, n)),
        Err(refused) => assert_eq!((number, blocks), (refused.number(), BEFORE)),
    }
    assert_eq!(cells, again);
    (number, blocks, cells)
}

fn refused_page(number: u32, places: usize) -> (u32, usize, Vec<i32>) {
    (number, BEFORE, vec![FILLED; places])
}

fn page(num: u32, words: &[u64]) -> Vec<u8> {
    let mut text = format!("format=tetra-page\nnum={num}\ncount={}\n", words.len());
    for word in words {
        text += &format!("word={word:012x}\n");
    }
    text.into_bytes()
}

fn values<T: Copy + Default>(listed: &[(T, usize)]) -> [T; 24] {
    let mut y = [T::default(); 24];
    for (v, i) in listed {
        y[*i] = *v;
    }
    y
}

// ---- the request's examples, by their numbers

#[test]
fn examples_words() {
    // 1
    for word in [0, 2, 0x3800, 1 << 47, 0xffff000000000000] {
        assert_eq!(even::check(word), Ok(()));
        assert_eq!(even::decode(word), Ok(decode(word)));
    }
    assert_eq!(even::decode(2), Ok(values(&[(4, 12), (4, 23)])));
    // 2
    for word in [1, 3, 1 << 47 | 1, 0x7fffffffffff] {
        assert_eq!(even::check(word), Err(Refused::AllOdd));
        assert_eq!(even::decode(word), Err(Refused::AllOdd));
    }
}

#[test]
fn examples_points() {
    // 3
    for y in [[1; 24], decode(1), [-3; 24], [i32::MAX; 24]] {
        assert_eq!(encoded(&y), Err(Refused::AllOdd));
    }
    // 4
    let mut y = [1; 24];
    y[0] = 3;
    assert_eq!(encoded(&y), Err(Refused::AllOdd));
    assert_eq!(encode_point(&y), Err(Refused::NoCodeword));
    assert_eq!(encoded(&values(&[(1, 0)])), Err(Refused::MixedParity));
    assert_eq!(encoded(&values(&[(2, 0)])), Err(Refused::NoCodeword));
    assert_eq!(encoded(&values(&[(4, 0)])), Err(Refused::WrongSum));
    assert_eq!(
        encoded(&values(&[(12, 0), (4, 1)])),
        Err(Refused::Outside { section: 1 })
    );
    assert_eq!(encoded(&values(&[(4, 0), (4, 1)])), Ok(0x3800));
}

fn told(c: Result<Code, Refused>) -> (u64, u64, [i32; 24]) {
    let c = c.unwrap();
    (c.word, c.score.to_bits(), c.point)
}

#[test]
fn examples_samples() {
    // 5
    let x = values(&[(4.1, 0), (3.9, 1)]);
    let four = values(&[(4, 0), (4, 1)]);
    assert_eq!(
        told(even::encode_at_scale(&x, 1.0, 8)),
        (0x3800, 0x4016a09e667f3bcc, four)
    );
    // 6
    let x = decode(1).map(f64::from);
    for setting in [8, 1] {
        assert_eq!(encode_at_scale(&x, 1.0, setting).unwrap().word, 1);
        assert_eq!(
            told(even::encode_at_scale(&x, 1.0, setting)),
            (0, f64::NEG_INFINITY.to_bits(), [0; 24])
        );
    }
    // 7
    let x = decode(0x7fffffffffff).map(f64::from);
    let near = [
        0, 0, -4, -4, -4, 0, 6, 0, -2, 4, 0, -4, 4, -2, 2, 4, -2, 0, 0, 0, -6, 0, -2, 2,
    ];
    assert_eq!(
        told(even::encode_at_scale(&x, 1.0, 8)),
        (0x633cd11b5c00, 0x402df42cee65187d, near)
    );
    // 8
    let at = |first, scale, setting| even::encode_at_scale(&values(&[(first, 0)]), scale, setting);
    assert_eq!(at(f64::NAN, 0.0, 0), Err(Refused::BadSetting));
    assert_eq!(at(f64::NAN, 0.0, 8), Err(Refused::BadScale));
    assert_eq!(at(1e291, 1.0, 8), Err(Refused::TooLarge));
    assert_eq!(at(1000001.0, 1.0, 8), Err(Refused::FarQuotient));
    assert_eq!(
        told(even::encode(&[0.0; 24])),
        (0, f64::NEG_INFINITY.to_bits(), [0; 24])
    );
    // 9: the full coder's point is even too, with the same score
    let x = [0.5; 24];
    assert_eq!(
        told(encode_with(&x, 8)),
        (0x0800f00100, 0x4003988e1409212f, [2; 24])
    );
    assert_eq!(
        told(even::encode_with(&x, 8)),
        (0x407407080e00, 0x4003988e1409212f, [4; 24])
    );
    assert_eq!(even::encode(&x), even::encode_with(&x, 8));
}

#[test]
fn examples_pages() {
    // 10
    let two = values(&[(2, 0), (2, 1)]).to_vec();
    assert_eq!(read(&page(128, &[0x3800]), 24), (0, 1, two));
    let odd = page(128, &[1]);
    assert_eq!(read(&odd, 24), refused_page(13, 24));
    assert_eq!(read(&odd, 0), refused_page(13, 0));
    let lines = String::from_utf8(odd).unwrap().replace('\n', "\r\n");
    assert_eq!(read(lines.as_bytes(), 24), refused_page(9, 24));
}

// ---- at scale

// 13 exactly where bit 0 is set, and then the point is as it was; 8 before 13.
#[test]
fn words() {
    let mut drawn = Drawn(1);
    let mut odd = 0;
    for i in 0..200_000 {
        let word = match i {
            0..64 => 1 << i,
            64..128 => 1 << (i - 64) | 1,
            _ => drawn.next(),
        };
        let places = drawn.of(&[0, 23, 24, 24, 24, 25, 30]);
        let expected = match (word & 1, places) {
            (_, ..24) => (8, vec![FILLED; places]),
            (1, _) => (13, vec![FILLED; places]),
            _ => (0, [&decode(word)[..], &vec![FILLED; places - 24]].concat()),
        };
        assert_eq!(decoded(word, places), expected, "{word:016x}");
        let accepted = if word & 1 == 1 {
            odd += 1;
            Err(Refused::AllOdd)
        } else {
            Ok(())
        };
        assert_eq!(even::check(word), accepted);
        assert_eq!(even::decode(word), accepted.map(|()| decode(word)));
    }
    assert!((90_000..110_000).contains(&odd));
}

// Points that have a word, and such points damaged so that each refusal comes up: 5 for mixed parities, 13
// for all odd, and for all even what the full coder says.
#[test]
fn points() {
    let mut drawn = Drawn(2);
    let mut met = [0; 14];
    for _ in 0..200_000 {
        let mut y = decode(drawn.next());
        match drawn.below(6) {
            0 => (),                                                // it has a word
            1 => y[drawn.below(24)] += drawn.of(&[-1, 1, 3, 1001]), // mixed parities
            2 => y = y.map(|v| v + 1), // the other parity, and perhaps no codeword
            3 => y[drawn.below(24)] += drawn.of(&[-2, 2, 6]), // no codeword
            4 => y[drawn.below(24)] += drawn.of(&[-4, 4, 12]), // the wrong sum, or outside
            _ => {
                let (far, at) = (drawn.of(&[8, -16, 1 << 20, -(1 << 30)]), drawn.below(24));
                y[at] += far; // the sum is right, and a section may be outside
            }
        }
        let odd = y.iter().filter(|v| **v % 2 != 0).count();
        let expected = match odd {
            0 => encode_point(&y),
            24 => Err(Refused::AllOdd),
            _ => Err(Refused::MixedParity),
        };
        let got = encoded(&y);
        assert_eq!(got, expected, "{y:?}");
        // the full coder has the same reason for mixed parities, and its own for what is odd
        match got {
            Ok(word) => assert_eq!((even::check(word), decode(word)), (Ok(()), y)),
            Err(Refused::AllOdd) => assert_ne!(encode_point(&y), Err(Refused::MixedParity)),
            Err(_) => assert_eq!(encode_point(&y), got),
        }
        met[got.map_or_else(Refused::number, |_| 0) as usize] += 1;
    }
    for number in [0, 5, 10, 11, 12, 13] {
        assert!(met[number] > 1000, "{number}: {met:?}");
    }
}

// A text that is no page has 9, whatever its words; a page with an odd word in any place has 13, however
// short the buffer; then comes 8; else the full coder's counts.
#[test]
fn pages() {
    let mut drawn = Drawn(3);
    let mut met = [0; 14];
    for _ in 0..20_000 {
        let count = drawn.of(&[0, 1, 2, 5, 63, 64]);
        let mut words: Vec<u64> = (0..count).map(|_| drawn.next() >> 16 & !1).collect();
        if count > 0 {
            match drawn.below(3) {
                0 => (),
                1 => words[drawn.below(count)] |= 1, // one odd word
                _ => words = words.iter().map(|w| w | drawn.next() & 1).collect(),
            }
        }
        let mut text = page(1 + drawn.below(65535) as u32, &words);
        let whole = drawn.below(4) > 0;
        if !whole {
            let at = drawn.below(text.len());
            match drawn.below(3) {
                0 => text.truncate(at),
                1 => text.insert(at, b'\r'),
                _ => text[at] = b'%',
            }
        }
        let needed = 24 * count;
        let places = drawn.of(&[0, needed.saturating_sub(1), needed, needed, needed + 5]);
        let odd = words.iter().any(|w| w & 1 == 1);
        assert_eq!(parse_page(&text).is_ok(), whole);
        let expected = match (whole, odd) {
            (false, _) => refused_page(9, places),
            (true, true) => refused_page(13, places),
            _ if places < needed => refused_page(8, places),
            _ => {
                let mut cells = vec![FILLED; places];
                assert_eq!(read_page(&text, &mut cells), Ok(count));
                assert_eq!(cells[needed..], vec![FILLED; places - needed]);
                (0, count, cells)
            }
        };
        let got = read(&text, places);
        assert_eq!(got, expected);
        met[got.0 as usize] += 1;
    }
    for number in [0, 8, 9, 13] {
        assert!(met[number] > 1000, "{number}: {met:?}");
    }
}

// One odd word among 64, in each place in turn.
#[test]
fn one_odd_word() {
    for at in 0..64 {
        let mut words = [0x3800; 64];
        words[at] |= 1;
        assert_eq!(
            read(&page(256, &words), PAGE_COUNTS),
            refused_page(13, PAGE_COUNTS)
        );
    }
}

/// Samples of several shapes, and a scale at which they are worth coding.
fn block(drawn: &mut Drawn, shape: usize) -> ([f64; 24], f64) {
    let near = decode(drawn.next());
    let spread = drawn.of(&[0.3, 1.0, 3.0, 10.0]);
    let x = std::array::from_fn(|j| match shape {
        0 => spread * drawn.unit(),                               // noise
        1 => f64::from(near[j]) + 0.9 * drawn.unit(),             // near a point
        2 => f64::from(near[j]),                                  // a point
        3 => (6.0 * drawn.unit()).round() * 0.5,                  // halves
        4 if drawn.below(4) == 0 => 30.0 * spread * drawn.unit(), // spikes
        4 => 0.0,
        _ => 5.0 + 0.3 * drawn.unit(), // flat
    });
    let scale = drawn.of(&[1.0, 1.0, 1.0, 0.5, 0.37, 1.7]);
    (x, scale)
}

// The code is one of the profile: its word is even and decodes to its point, of which it has the score.
fn holds(x: &[f64; 24], c: &Code) {
    assert_eq!(even::check(c.word), Ok(()));
    assert!(c.point.iter().all(|v| v % 2 == 0));
    assert_eq!(even::decode(c.word), Ok(c.point));
    assert_eq!(even::encode_point(&c.point), Ok(c.word));
    assert_eq!(t_of(x, &c.point), Ok(c.score));
}

// At a scale the profile's code is the full coder's wherever that is even.
#[test]
fn samples_at_scale() {
    let mut drawn = Drawn(4);
    let (mut same, mut other) = (0, 0);
    for i in 0..6_000 {
        let (x, scale) = block(&mut drawn, i % 6);
        let setting = drawn.of(&[1, 2, 4, 7, 8, 9, u32::MAX]);
        let c = even::encode_at_scale(&x, scale, setting).unwrap();
        holds(&x, &c);
        let full = encode_at_scale(&x, scale, setting).unwrap();
        if full.word & 1 == 0 {
            assert_eq!(c, full);
            same += 1;
        } else {
            other += 1;
        }
    }
    println!("the full code is even: {same}, odd: {other}");
    assert!(same > 1000 && other > 1000);
}

// At the scale that they give, the better of the profile's codes at the two scales that are tried, the first
// unless the second scores higher. Samples so small that they are divided first have an even code too.
#[test]
fn samples_at_their_scale() {
    let mut drawn = Drawn(5);
    let (mut first, mut second, mut divided) = (0, 0, 0);
    for i in 0..3_000 {
        let (x, _) = block(&mut drawn, i % 6);
        let half = 2f64.powi(drawn.of(&[0, 0, 0, 450, -450, -535]));
        let x = x.map(|v| v * half * half);
        let setting = drawn.of(&[1, 2, 4, 8, 8, 8, u32::MAX]);
        let c = even::encode_with(&x, setting).unwrap();
        assert_eq!(even::decode(c.word), Ok(c.point));
        assert_eq!(even::encode_point(&c.point), Ok(c.word));
        if setting >= 8 {
            assert_eq!(even::encode(&x), Ok(c));
        }
        let lower = lower_scale(&x).unwrap().scale;
        if lower < f64::MIN_POSITIVE {
            divided += 1;
            continue;
        }
        holds(&x, &c);
        let a = even::encode_at_scale(&x, lower, setting).unwrap();
        let b = even::encode_at_scale(&x, lower * 1.14, setting).unwrap();
        if b.score > a.score {
            second += 1;
            assert_eq!(c, b);
        } else {
            first += 1;
            assert_eq!(c, a);
        }
    }
    println!("the first scale: {first}, the second: {second}, divided or all zero: {divided}");
    assert!(first > 300 && second > 300 && divided > 300);
}

// What is refused, and with which number, is as for the full coder, and every cell is as it was.
#[test]
fn samples_refused() {
    let mut drawn = Drawn(6);
    let mut met = [0; 14];
    for _ in 0..6_000 {
        let mut x = [0.0; 24];
        for _ in 0..2 {
            x[drawn.below(24)] = drawn.of(&[
                1.0,
                1.0,
                f64::NAN,
                f64::INFINITY,
                f64::NEG_INFINITY,
                1e291,
                -1e291,
                1000001.0,
            ]);
        }
        let (scale, setting) = (
            drawn.of(&[1.0, 1.0, 1.0, 0.0, -1.0, f64::NAN, f64::INFINITY]),
            drawn.of(&[0, 1, 8, 8]),
        );
        let (n, places) = (
            drawn.of(&[0, 23, 24, 24, 24, 24]),
            drawn.of(&[0, 23, 24, 24, 24, 24]),
        );
        let call = drawn.below(3);
        let (mut word, mut y, mut score) = (BEFORE as u64, [FILLED; 24], 5.5);
        let (mut full_word, mut full_y, mut full_score) = (word, y, score);
        let (p, at, full_at) = (x.as_ptr(), y.as_mut_ptr(), full_y.as_mut_ptr());
        let (w, v, s, t) = (&mut word, &mut full_word, &mut score, &mut full_score);
        let (number, full) = unsafe {
            match call {
                0 => (
                    raw::yultarvas_even_encode(p, n, w, at, places, s),
                    raw::yultarvas_encode(p, n, v, full_at, places, t),
                ),
                1 => (
                    raw::yultarvas_even_encode_with(p, n, setting, w, at, places, s),
                    raw::yultarvas_encode_with(p, n, setting, v, full_at, places, t),
                ),
                _ => (
                    raw::yultarvas_even_encode_at_scale(p, n, scale, setting, w, at, places, s),
                    raw::yultarvas_encode_at_scale(p, n, scale, setting, v, full_at, places, t),
                ),
            }
        };
        assert_eq!(number, full);
        if number != 0 {
            assert_eq!((word, y, score), (BEFORE as u64, [FILLED; 24], 5.5));
        }
        met[number as usize] += 1;
    }
    assert_eq!(met[13], 0);
    for number in [0, 1, 2, 3, 4, 7, 8] {
        assert!(met[number] > 20, "{number}: {met:?}");
    }
}
