//! The order of refusals; slices that are too short or longer than a block, and what a call leaves in what it
//! is lent.
use yultarvas::{
    add_word, check_summary, decode, encode, encode_at_scale, encode_point, encode_with, even, lower_scale,
    parse_page, raw, read_page, summarise, t_of, Refused,
};

const PAGE: &[u8] = b"format=tetra-page\nnum=128\ncount=1\nword=000000000001\n";
const EVEN: &[u8] = b"format=tetra-page\nnum=128\ncount=1\nword=000000003800\n";

#[test]
fn order_of_refusals() {
    let mut x = [1.0; 24];
    x[3] = f64::NAN;
    assert_eq!(encode_at_scale(&x, 0.0, 0), Err(Refused::BadSetting));
    assert_eq!(encode_with(&x, 0), Err(Refused::BadSetting));
    assert_eq!(encode_at_scale(&x, 0.0, 8), Err(Refused::BadScale));
    assert_eq!(even::encode_at_scale(&x, 0.0, 0), Err(Refused::BadSetting));
    assert_eq!(even::encode_with(&x, 0), Err(Refused::BadSetting));
    assert_eq!(even::encode_at_scale(&x, 0.0, 8), Err(Refused::BadScale));
    x[2] = 1e291;
    assert_eq!(encode(&x), Err(Refused::NotFinite));
    assert_eq!(encode_with(&x, 8), Err(Refused::NotFinite));
    assert_eq!(even::encode(&x), Err(Refused::NotFinite));
    assert_eq!(even::encode_with(&x, 8), Err(Refused::NotFinite));
    assert_eq!(even::encode_at_scale(&x, 1.0, 8), Err(Refused::NotFinite));
    assert_eq!(lower_scale(&x), Err(Refused::NotFinite));
    assert_eq!(t_of(&x, &[0; 24]), Err(Refused::NotFinite));
    x[3] = 0.0;
    assert_eq!(encode(&x), Err(Refused::TooLarge));
    assert_eq!(even::encode(&x), Err(Refused::TooLarge));
    assert_eq!(even::encode_with(&x, 8), Err(Refused::TooLarge));
    assert_eq!(even::encode_at_scale(&x, 1.0, 8), Err(Refused::TooLarge));
    assert_eq!(lower_scale(&x), Err(Refused::TooLarge));
    assert_eq!(t_of(&x, &[0; 24]), Err(Refused::TooLarge));
    assert_eq!(
        encode_at_scale(&[1000001.0; 24], 1.0, 8),
        Err(Refused::FarQuotient)
    );
    assert_eq!(
        even::encode_at_scale(&[1000001.0; 24], 1.0, 8),
        Err(Refused::FarQuotient)
    );
    assert_eq!(even::read_page(&PAGE[1..], &mut []), Err(Refused::NoPage));
    assert_eq!(even::read_page(PAGE, &mut []), Err(Refused::AllOdd));
    assert_eq!(even::read_page(EVEN, &mut [7; 23]), Err(Refused::NoRoom));
    assert_eq!(read_page(PAGE, &mut [7; 23]), Err(Refused::NoRoom));
    assert_eq!(read_page(b"", &mut []), Err(Refused::NoPage));
    assert_eq!(parse_page(b""), Err(Refused::NoPage));
    assert_eq!(summarise(b"", &mut []), Err(Refused::NoPage));
    assert_eq!(summarise(PAGE, &mut [7; 7]), Err(Refused::NoRoom));
    assert_eq!(check_summary(b"", &[]), Err(Refused::NoPage));
    assert_eq!(check_summary(PAGE, &[7; 7]), Err(Refused::NoRoom));
    assert_eq!(check_summary(PAGE, &[7; 8]), Err(Refused::Disagrees));
    assert_eq!(add_word(b"", 1, &mut []), Err(Refused::NoPage));
    assert_eq!(add_word(PAGE, 1, &mut [7; 11]), Err(Refused::NoRoom));
    assert_eq!(add_word(PAGE, 1, &mut [7; 12]), Err(Refused::Disagrees));
}

fn point(values: &[(i32, usize)]) -> [i32; 24] {
    let mut y = [0; 24];
    for (v, i) in values {
        y[*i] = *v;
    }
    y
}

// The first that fits of 5, 10, 11 with the lowest section, 12.
#[test]
fn why_no_word() {
    let outside = |section| Err(Refused::Outside { section });
    assert_eq!(encode_point(&point(&[(4, 0), (4, 1)])), Ok(0x3800));
    assert_eq!(
        encode_point(&point(&[(1, 0), (i32::MIN, 1)])),
        Err(Refused::MixedParity)
    );
    assert_eq!(
        encode_point(&point(&[(2, 0), (100, 1)])),
        Err(Refused::NoCodeword)
    );
    assert_eq!(encode_point(&point(&[(12, 0)])), outside(1));
    assert_eq!(
        encode_point(&point(&[(i32::MIN, 0), (12, 6), (12, 5)])),
        outside(1)
    );
    assert_eq!(encode_point(&point(&[(12, 6), (12, 5)])), outside(2));
    assert_eq!(encode_point(&point(&[(4, 6), (12, 5)])), outside(3));
    assert_eq!(encode_point(&point(&[(4, 0)])), Err(Refused::WrongSum));
    assert_eq!(encode_point(&[1; 24]), Err(Refused::WrongSum));
    assert!(encode_point(&[1; 24]).is_err_and(Refused::no_word));
    assert!(!Refused::NoRoom.no_word());
}

// In the even profile the first that fits of 5, 13, 10, 11 with the lowest section, 12.
#[test]
fn why_no_even_word() {
    let outside = |section| Err(Refused::Outside { section });
    assert_eq!(even::encode_point(&point(&[(4, 0), (4, 1)])), Ok(0x3800));
    assert_eq!(
        even::encode_point(&point(&[(1, 0), (i32::MIN, 1)])),
        Err(Refused::MixedParity)
    );
    let mut odd = decode(1);
    assert_eq!(even::encode_point(&odd), Err(Refused::AllOdd)); // it has a word
    assert_eq!(even::encode_point(&[1; 24]), Err(Refused::AllOdd)); // the sum is wrong
    odd[5] += 4 * 1000; // outside
    assert_eq!(even::encode_point(&odd), Err(Refused::AllOdd));
    odd[5] += 2; // no codeword
    assert_eq!(even::encode_point(&odd), Err(Refused::AllOdd));
    odd[23] += 1;
    assert_eq!(even::encode_point(&odd), Err(Refused::MixedParity));
    assert_eq!(
        even::encode_point(&point(&[(2, 0), (100, 1)])),
        Err(Refused::NoCodeword)
    );
    assert_eq!(even::encode_point(&point(&[(12, 0)])), outside(1));
    assert_eq!(even::encode_point(&point(&[(12, 6), (12, 5)])), outside(2));
    assert_eq!(even::encode_point(&point(&[(4, 6), (12, 5)])), outside(3));
    assert_eq!(even::encode_point(&point(&[(4, 0)])), Err(Refused::WrongSum));
    assert!(!Refused::AllOdd.no_word());
}

// The header has the crate's sentences, each in pieces that the compiler joins.
#[test]
fn sentences_of_c() {
    let header = include_str!("../../../include/yultarvas.h");
    let mut joined = String::new();
    for line in header.lines() {
        let piece = line.trim();
        match (joined.ends_with('"'), piece.strip_prefix('"')) {
            (true, Some(rest)) => {
                joined.pop();
                joined.push_str(rest);
            }
            _ => joined.push_str(piece),
        }
    }
    let reasons = [
        Refused::MixedParity,
        Refused::NoCodeword,
        Refused::Outside { section: 1 },
        Refused::Outside { section: 2 },
        Refused::Outside { section: 3 },
        Refused::WrongSum,
        Refused::AllOdd,
    ];
    for refused in reasons {
        let said = refused.to_string();
        let sentence = said.split(" (refused with").next().unwrap();
        assert!(joined.contains(&format!("return \"{sentence}\";")), "{sentence}");
    }
}

#[test]
fn numbers() {
    let all = [
        (1, Refused::NotFinite),
        (2, Refused::TooLarge),
        (3, Refused::BadScale),
        (4, Refused::FarQuotient),
        (5, Refused::MixedParity),
        (7, Refused::BadSetting),
        (8, Refused::NoRoom),
        (9, Refused::NoPage),
        (10, Refused::NoCodeword),
        (11, Refused::Outside { section: 1 }),
        (11, Refused::Outside { section: 3 }),
        (12, Refused::WrongSum),
        (13, Refused::AllOdd),
        (14, Refused::Disagrees),
        (16, Refused::Other(16)),
    ];
    for (number, refused) in all {
        assert_eq!(refused.number(), number);
    }
    assert_eq!(
        Refused::MixedParity.to_string(),
        "the point has no word: its coordinates are not all even or all odd (refused with 5)"
    );
    assert_eq!(
        Refused::Outside { section: 2 }.to_string(),
        "the point has no word: section 2 (coordinates 6, 11, 13, 14, 16, 17, 18, 19) is outside its bound; it \
         needs smaller values (refused with 11)"
    );
    assert_eq!(
        Refused::AllOdd.to_string(),
        "the even profile has no odd points: a word's p is 1, or a point's coordinates are all odd \
         (refused with 13)"
    );
    assert_eq!(
        Refused::Disagrees.to_string(),
        "the summary and the page disagree (refused with 14)"
    );
}

#[test]
fn known_answers() {
    let mut x = [0.0; 24];
    (x[0], x[1]) = (4.1, 3.9);
    let c = encode_at_scale(&x, 1.0, 8).unwrap();
    assert_eq!((c.word, c.point), (0x3800, decode(0x3800)));
    assert_eq!(t_of(&x, &c.point), Ok(c.score));
    assert_eq!(encode(&x), encode_with(&x, 8));
    let s = lower_scale(&x).unwrap();
    assert_eq!(s.largest, 4.1);
    assert!(0.0 < s.scale && s.scale < s.largest);
    assert_eq!(even::encode_at_scale(&x, 1.0, 8), Ok(c));
    assert_eq!(even::encode(&x), even::encode_with(&x, 8));
    let zero = encode(&[0.0; 24]).unwrap();
    assert_eq!((zero.word, zero.score), (0, f64::NEG_INFINITY));
    assert_eq!(even::encode(&[0.0; 24]), Ok(zero));
}

// Of a longer slice the first 24 places are meant.
#[test]
fn longer_slices() {
    let mut y = [9; 30];
    assert_eq!(unsafe { raw::yultarvas_decode(1, y.as_mut_ptr(), y.len()) }, 0);
    assert_eq!(y[..24], decode(1));
    assert_eq!(y[24..], [9; 6]);
    let mut word = 0;
    assert_eq!(
        unsafe { raw::yultarvas_encode_point(y.as_ptr(), y.len(), &mut word) },
        0
    );
    assert_eq!(word, 1);
    let mut x = [0.0; 30];
    (x[0], x[1], x[25]) = (4.1, 3.9, f64::NAN);
    let (mut largest, mut scale) = (0.0, 0.0);
    assert_eq!(
        unsafe { raw::yultarvas_lower_scale(x.as_ptr(), x.len(), &mut largest, &mut scale) },
        0
    );
    assert_eq!(largest, 4.1);
    let mut counts = [9; 30];
    assert_eq!(read_page(PAGE, &mut counts), Ok(1));
    assert_eq!((counts[0], counts[23]), (0, -2));
    assert_eq!(counts[24..], [9; 6]);
    assert_eq!(even::read_page(EVEN, &mut counts), Ok(1));
    assert_eq!((counts[0], counts[1], counts[23]), (2, 2, 0));
    assert_eq!(counts[24..], [9; 6]);
    let mut score = 0.0;
    let mut y = [9; 30];
    unsafe {
        assert_eq!(raw::yultarvas_even_decode(0x3800, y.as_mut_ptr(), y.len()), 0);
        assert_eq!(y[..24], decode(0x3800));
        assert_eq!(
            raw::yultarvas_even_encode_point(y.as_ptr(), y.len(), &mut word),
            0
        );
        assert_eq!(word, 0x3800);
        y[..24].fill(9);
        let (samples, n, at) = (x.as_ptr(), x.len(), y.as_mut_ptr());
        assert_eq!(
            raw::yultarvas_even_encode_at_scale(samples, n, 1.0, 8, &mut word, at, 30, &mut score),
            0
        );
        assert_eq!((word, &y[..24]), (0x3800, &decode(0x3800)[..]));
        let code = even::encode(x.first_chunk().unwrap()).unwrap();
        assert_eq!(
            raw::yultarvas_even_encode(samples, n, &mut word, at, 30, &mut score),
            0
        );
        assert_eq!((word, &y[..24], score), (code.word, &code.point[..], code.score));
        (word, score) = (0, 0.0);
        assert_eq!(
            raw::yultarvas_even_encode_with(samples, n, 9, &mut word, at, 30, &mut score),
            0
        );
        assert_eq!((word, &y[..24], score), (code.word, &code.point[..], code.score));
    }
    assert_eq!(y[24..], [9; 6]);
    let (mut num, mut words, mut count) = (0, [9; 3], 0);
    let got = unsafe {
        raw::yultarvas_parse_page(
            PAGE.as_ptr(),
            PAGE.len(),
            &mut num,
            words.as_mut_ptr(),
            words.len(),
            &mut count,
        )
    };
    assert_eq!((got, num, words, count), (0, 128, [1, 9, 9], 1));
    let mut rows = [9; 14];
    assert_eq!(summarise(PAGE, &mut rows), Ok(1));
    assert_eq!(rows, [32, 1, -3, 1, 32, 1, -3, 1, 9, 9, 9, 9, 9, 9]);
    assert_eq!(check_summary(PAGE, &rows), Ok(()));
    assert_eq!(add_word(PAGE, 0, &mut rows), Ok(2));
    assert_eq!(rows, [32, 1, -3, 1, 32, 1, -3, 1, 0, 0, 0, 0, 9, 9]);
}

// A refused call leaves every cell as it was. 8 stands before every other number, but for a page's 9 and 13.
#[test]
fn untouched() {
    let (mut word, mut y, mut score, mut count, mut num, mut words) = (77, [9; 24], 5.5, 66, 55, [44; 2]);
    let mut scale = 3.5;
    let bad = [f64::INFINITY; 24];
    let (x, at) = (bad.as_ptr(), y.as_mut_ptr());
    let two = b"format=tetra-page\nnum=1\ncount=3\nword=000000000001\nword=000000000001\nword=000000000001\n";
    unsafe {
        assert_eq!(raw::yultarvas_decode(1, at, 23), 8);
        assert_eq!(raw::yultarvas_encode_point([1; 24].as_ptr(), 24, &mut word), 12);
        assert_eq!(raw::yultarvas_outside([1; 24].as_ptr(), 24), 0);
        assert_eq!(raw::yultarvas_outside([12; 24].as_ptr(), 24), 1);
        assert_eq!(raw::yultarvas_outside([12; 23].as_ptr(), 23), 0);
        assert_eq!(raw::yultarvas_encode_point([0; 23].as_ptr(), 23, &mut word), 8);
        assert_eq!(
            raw::yultarvas_encode_at_scale(x, 24, 1.0, 8, &mut word, at, 24, &mut score),
            1
        );
        assert_eq!(
            raw::yultarvas_encode_at_scale(x, 24, 0.0, 0, &mut word, at, 23, &mut score),
            8
        );
        assert_eq!(
            raw::yultarvas_encode_at_scale(x, 23, 0.0, 0, &mut word, at, 24, &mut score),
            8
        );
        assert_eq!(
            raw::yultarvas_encode_with(x, 24, 0, &mut word, at, 24, &mut score),
            7
        );
        assert_eq!(
            raw::yultarvas_encode_with(x, 23, 0, &mut word, at, 24, &mut score),
            8
        );
        assert_eq!(raw::yultarvas_encode(x, 24, &mut word, at, 24, &mut score), 1);
        assert_eq!(raw::yultarvas_encode(x, 24, &mut word, at, 23, &mut score), 8);
        assert_eq!(raw::yultarvas_lower_scale(x, 24, &mut score, &mut scale), 1);
        assert_eq!(raw::yultarvas_lower_scale(x, 23, &mut score, &mut scale), 8);
        assert_eq!(raw::yultarvas_t_of(x, 24, [1; 24].as_ptr(), 24, &mut score), 1);
        assert_eq!(raw::yultarvas_t_of(x, 24, [1; 24].as_ptr(), 23, &mut score), 8);
        assert_eq!(raw::yultarvas_t_of(x, 23, [1; 24].as_ptr(), 24, &mut score), 8);
        assert_eq!(
            raw::yultarvas_read_page(PAGE.as_ptr(), PAGE.len() - 1, at, 24, &mut count),
            9
        );
        assert_eq!(
            raw::yultarvas_read_page(PAGE.as_ptr(), PAGE.len(), at, 23, &mut count),
            8
        );
        assert_eq!(raw::yultarvas_even_decode(1, at, 23), 8);
        assert_eq!(raw::yultarvas_even_decode(1, at, 24), 13);
        assert_eq!(
            raw::yultarvas_even_encode_point([1; 23].as_ptr(), 23, &mut word),
            8
        );
        assert_eq!(
            raw::yultarvas_even_encode_point([1; 24].as_ptr(), 24, &mut word),
            13
        );
        assert_eq!(
            raw::yultarvas_even_encode_point([12; 24].as_ptr(), 24, &mut word),
            11
        );
        assert_eq!(
            raw::yultarvas_even_encode_at_scale(x, 24, 1.0, 8, &mut word, at, 24, &mut score),
            1
        );
        assert_eq!(
            raw::yultarvas_even_encode_at_scale(x, 24, 0.0, 0, &mut word, at, 23, &mut score),
            8
        );
        assert_eq!(
            raw::yultarvas_even_encode_at_scale(x, 23, 0.0, 0, &mut word, at, 24, &mut score),
            8
        );
        assert_eq!(
            raw::yultarvas_even_encode_with(x, 24, 0, &mut word, at, 24, &mut score),
            7
        );
        assert_eq!(
            raw::yultarvas_even_encode_with(x, 23, 0, &mut word, at, 24, &mut score),
            8
        );
        assert_eq!(
            raw::yultarvas_even_encode(x, 24, &mut word, at, 24, &mut score),
            1
        );
        assert_eq!(
            raw::yultarvas_even_encode(x, 24, &mut word, at, 23, &mut score),
            8
        );
        assert_eq!(
            raw::yultarvas_even_read_page(PAGE.as_ptr(), PAGE.len() - 1, at, 24, &mut count),
            9
        );
        assert_eq!(
            raw::yultarvas_even_read_page(PAGE.as_ptr(), PAGE.len(), at, 24, &mut count),
            13
        );
        assert_eq!(
            raw::yultarvas_even_read_page(PAGE.as_ptr(), PAGE.len(), at, 23, &mut count),
            13
        );
        assert_eq!(
            raw::yultarvas_even_read_page(EVEN.as_ptr(), EVEN.len(), at, 23, &mut count),
            8
        );
        let w = words.as_mut_ptr();
        assert_eq!(
            raw::yultarvas_parse_page(PAGE.as_ptr(), PAGE.len() - 1, &mut num, w, 2, &mut count),
            9
        );
        assert_eq!(
            raw::yultarvas_parse_page(two.as_ptr(), two.len(), &mut num, w, 2, &mut count),
            8
        );
        assert_eq!(
            raw::yultarvas_summarise(PAGE.as_ptr(), PAGE.len() - 1, at, 24, &mut count),
            9
        );
        assert_eq!(
            raw::yultarvas_summarise(PAGE.as_ptr(), PAGE.len(), at, 7, &mut count),
            8
        );
        assert_eq!(
            raw::yultarvas_add_word(PAGE.as_ptr(), PAGE.len() - 1, 1, at, 24, &mut count),
            9
        );
        assert_eq!(
            raw::yultarvas_add_word(PAGE.as_ptr(), PAGE.len(), 1, at, 11, &mut count),
            8
        );
        assert_eq!(
            raw::yultarvas_add_word(PAGE.as_ptr(), PAGE.len(), 1, at, 24, &mut count),
            14
        );
    }
    assert_eq!(
        (word, y, score, scale, count, num, words),
        (77, [9; 24], 5.5, 3.5, 66, 55, [44; 2])
    );
}
