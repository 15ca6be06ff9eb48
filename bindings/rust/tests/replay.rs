//! The requests and answers that the gate runs the programs `ask` and `page_runs` on, put to the library.
use std::fs;
use yultarvas::{
    decode, encode_at_scale, encode_point, encode_with, even, lower_scale, parse_page, read_page, t_of, Code,
    Refused, PAGE_COUNTS,
};

fn file(path: &str) -> String {
    let full = format!("{}/../../crates/{path}", env!("CARGO_MANIFEST_DIR"));
    fs::read_to_string(&full).unwrap_or_else(|e| panic!("{full}: {e}"))
}

// ---- request lines, as crates/answers/src/lib.rt and crates/even_answers/src/lib.rt have them. `None` where a line is no request; one of
// 1,024 bytes is none.

fn digits(s: &str) -> Option<u64> {
    if s.bytes().all(|b| b.is_ascii_digit()) {
        s.parse().ok()
    } else {
        None
    }
}

fn hex(s: &str) -> Option<u64> {
    if s.len() <= 16 && s.bytes().all(|b| b.is_ascii_hexdigit()) {
        u64::from_str_radix(s, 16).ok()
    } else {
        None
    }
}

fn signed(s: &str) -> Option<i32> {
    if s.starts_with('+') {
        None
    } else {
        s.parse().ok()
    }
}

fn point(words: &[&str]) -> Option<[i32; 24]> {
    let y: Option<Vec<i32>> = words.iter().map(|w| signed(w)).collect();
    y?.try_into().ok()
}

fn samples(words: &[&str]) -> Option<[f64; 24]> {
    let x: Option<Vec<f64>> = words.iter().map(|w| hex(w).map(f64::from_bits)).collect();
    x?.try_into().ok()
}

// ---- answers, as ask prints them

fn listed(y: &[i32]) -> String {
    y.iter().map(i32::to_string).collect::<Vec<_>>().join(",")
}

fn refused(r: Refused) -> String {
    match r {
        Refused::Outside { section } => format!("refused=11 section={section}"),
        _ => format!("refused={}", r.number()),
    }
}

// The sign of a zero is cleared.
fn bits(t: f64) -> u64 {
    if t == 0.0 {
        0
    } else {
        t.to_bits()
    }
}

fn word(w: Result<u64, Refused>) -> String {
    w.map_or_else(refused, |w| format!("word={w:012x}"))
}

fn code(c: Result<Code, Refused>) -> String {
    c.map_or_else(refused, |c| {
        format!(
            "word={:012x} score={:016x} point={}",
            c.word,
            bits(c.score),
            listed(&c.point)
        )
    })
}

// From the setting 8 on all are the same.
fn setting(n: u64) -> u32 {
    n.min(8) as u32
}

// What the library answers to a request; `None` where the line is none.
fn answer(line: &str) -> Option<String> {
    if line.len() >= 1024 {
        return None;
    }
    let words: Vec<&str> = line.split(' ').collect();
    let rest = &words[1..];
    match (words[0], rest.len()) {
        ("decode", 1) => hex(rest[0]).map(|w| format!("point={}", listed(&decode(w)))),
        ("edecode", 1) => {
            hex(rest[0]).map(|w| even::decode(w).map_or_else(refused, |y| format!("point={}", listed(&y))))
        }
        ("point", 24) => point(rest).map(|y| word(encode_point(&y))),
        ("epoint", 24) => point(rest).map(|y| word(even::encode_point(&y))),
        (name @ ("scale" | "escale"), 26) => {
            let (n, s, x) = (digits(rest[0])?, hex(rest[1])?, samples(&rest[2..])?);
            let call = if name == "scale" {
                encode_at_scale
            } else {
                even::encode_at_scale
            };
            Some(code(call(&x, f64::from_bits(s), setting(n))))
        }
        (name @ ("auto" | "eauto"), 25) => {
            let (n, x) = (digits(rest[0])?, samples(&rest[1..])?);
            let call = if name == "auto" {
                encode_with
            } else {
                even::encode_with
            };
            Some(code(call(&x, setting(n))))
        }
        ("lower", 24) => {
            let scales = lower_scale(&samples(rest)?);
            Some(scales.map_or_else(refused, |s| {
                format!("max={:016x} scale={:016x}", bits(s.largest), bits(s.scale))
            }))
        }
        ("score", 48) => {
            let (x, y) = (samples(&rest[..24])?, point(&rest[24..])?);
            Some(t_of(&x, &y).map_or_else(refused, |t| format!("score={:016x}", bits(t))))
        }
        _ => None,
    }
}

#[test]
fn requests() {
    let (stdin, stdout) = (file("ask/stdin"), file("ask/stdout"));
    let requests: Vec<&str> = stdin.strip_suffix('\n').unwrap_or(&stdin).split('\n').collect();
    let answers: Vec<&str> = stdout.lines().collect();
    assert_eq!(requests.len(), answers.len());
    let mut counts = [0; 2];
    for (line, expected) in requests.into_iter().zip(answers) {
        let got = answer(line);
        counts[got.is_none() as usize] += 1;
        assert_eq!(got.as_deref().unwrap_or("refused=9"), expected, "{line}");
    }
    println!("{} answered alike, {} no requests", counts[0], counts[1]);
    assert!(counts[0] > 1500);
}

// ---- pages: for each text what `read` answers with 24 places, what it answers in the even profile, and then its blocks or its refusal

fn blocks(text: &str) -> String {
    let mut counts = [0; PAGE_COUNTS];
    match read_page(text.as_bytes(), &mut counts) {
        Ok(n) => (0..n)
            .map(|k| format!("block={k}\ncounts={}\n", listed(&counts[24 * k..24 * k + 24])))
            .collect(),
        Err(r) => refused(r) + "\n",
    }
}

fn read(answer: Result<usize, Refused>) -> String {
    let (number, count) = match answer {
        Ok(n) => (0, n),
        Err(r) => (r.number(), 0),
    };
    format!("number={number} count={count}\n")
}

#[test]
fn pages() {
    let texts = file("page_runs/stdin");
    let mut got = String::new();
    for text in texts.split('%') {
        got += &read(read_page(text.as_bytes(), &mut [0; 24]));
        got += &format!("even {}", read(even::read_page(text.as_bytes(), &mut [0; 24])));
        got += &blocks(text);
    }
    assert_eq!(got, file("page_runs/stdout"));
}

// A page written from the words that were read is the text again.
#[test]
fn words_of_pages() {
    let mut pages = 0;
    for text in file("page_runs/stdin").split('%') {
        let counts = read_page(text.as_bytes(), &mut [0; PAGE_COUNTS]);
        let page = parse_page(text.as_bytes());
        assert_eq!(counts.err(), page.err());
        let Ok(page) = page else { continue };
        let mut again = format!(
            "format=tetra-page\nnum={}\ncount={}\n",
            page.num(),
            page.words().len()
        );
        for word in page.words() {
            again += &format!("word={word:012x}\n");
        }
        assert_eq!(again, text);
        pages += 1;
    }
    assert!(pages > 3);
}
