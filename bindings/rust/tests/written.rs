//! Pages that are written: the examples of request 2026-01, each read again; the order of refusals, their
//! blocks, and that a refusal leaves the text and the length as they were.
use yultarvas::{encode_at_scale, parse_page, raw, write_page, Refused, RefusedAt, PAGE_BLOCKS, PAGE_TEXT};

fn at(refused: Refused, block: usize) -> Result<usize, RefusedAt> {
    Err(RefusedAt { refused, block })
}

// The text that is written, and that what stood behind it stays.
fn written(num: u32, count: usize, samples: &[i32]) -> String {
    let mut text = [b'x'; PAGE_TEXT + 1];
    let length = write_page(num, count, samples, &mut text).unwrap();
    assert!(text[length..].iter().all(|b| *b == b'x'));
    let page = parse_page(&text[..length]).unwrap();
    assert_eq!((page.num(), page.words().len()), (num, count));
    for (word, block) in page.words().iter().zip(samples.chunks(24)) {
        let x: [f64; 24] = std::array::from_fn(|j| f64::from(block[j]));
        assert_eq!(
            encode_at_scale(&x, f64::from(num) / 256.0, 8).unwrap().word,
            *word
        );
    }
    let mut exact = vec![0; length];
    assert_eq!(write_page(num, count, samples, &mut exact), Ok(length));
    assert_eq!(exact, text[..length]);
    let mut less = vec![b'x'; length - 1];
    assert_eq!(write_page(num, count, samples, &mut less), at(Refused::NoRoom, 0));
    assert!(less.iter().all(|b| *b == b'x'));
    String::from_utf8(exact).unwrap()
}

fn page(num: u32, words: &[&str]) -> String {
    let mut text = format!("format=tetra-page\nnum={num}\ncount={}\n", words.len());
    for word in words {
        text += &format!("word={word}\n");
    }
    text
}

fn lone(first: i32) -> [i32; 24] {
    std::array::from_fn(|j| if j == 0 { first } else { 0 })
}

#[test]
fn examples() {
    let four: [i32; 24] = std::array::from_fn(|j| if j < 2 { 4 } else { 0 });
    let ones: [i32; 24] = std::array::from_fn(|j| if j < 23 { 1 } else { -2 });
    let ramp: Vec<i32> = (0..24).map(|k| 100 * k - 1150).collect();
    let down: Vec<i32> = ramp.iter().map(|x| -x).collect();
    assert_eq!(written(256, 0, &[]), page(256, &[]));
    assert_eq!(written(256, 1, &four), page(256, &["000000003800"]));
    assert_eq!(write_page(256, 1, &four, &mut [0; 51]), at(Refused::NoRoom, 0));
    assert_eq!(write_page(256, 1, &four, &mut [0; 52]), Ok(52));
    assert_eq!(written(128, 1, &ones), page(128, &["09b800f00100"]));
    // the trace that docs/FORMAT.md shows: what is read of the page of this num and word
    let twos: [i32; 24] = std::array::from_fn(|j| if j < 23 { 2 } else { -4 });
    assert_eq!(written(384, 1, &twos), page(384, &["000000000001"]));
    let both = [ramp.clone(), down].concat();
    assert_eq!(
        written(65535, 2, &both),
        page(65535, &["4e0025f97ac9", "4e0825097bc9"])
    );
    let still = [ramp, vec![0; 24]].concat();
    assert_eq!(
        written(1000, 2, &still),
        page(1000, &["00006a000e23", "000000000000"])
    );
    assert_eq!(written(8, 1, &lone(31250)), page(8, &["000000000000"]));
    assert_eq!(written(9, 1, &[32767; 24]), page(9, &["007509000e03"]));
    // samples behind the blocks are not looked at
    let more = [&four[..], &[40000]].concat();
    assert_eq!(written(256, 1, &more), page(256, &["000000003800"]));
    let turns: [i32; 24] = std::array::from_fn(|j| if j % 2 == 0 { 32767 } else { -32767 });
    assert_eq!(written(65535, 1, &turns), page(65535, &["00781aa000e5"]));
    let many: Vec<i32> = (0..64 * 24i64)
        .map(|i| ((37 * i * i + 11 * i) % 65535 - 32767) as i32)
        .collect();
    // the longest text: tests/written.py has its hash
    let longest = written(65535, PAGE_BLOCKS, &many);
    assert_eq!(longest.len(), PAGE_TEXT);
    assert!(
        longest.starts_with("format=tetra-page\nnum=65535\ncount=64\nword=091407f1150c\nword=002d29fb7d76\n")
    );
    assert!(longest.ends_with("\nword=03f02fb089fa\nword=007078b001d9\n"));
}

#[test]
fn refusals() {
    let mut text = [b'x'; PAGE_TEXT];
    let mut write = |num, count, samples: &[i32], room: usize| {
        let answer = write_page(num, count, samples, &mut text[..room]);
        assert!(text.iter().all(|b| *b == b'x'));
        answer
    };
    for num in [0, 65536, u32::MAX] {
        assert_eq!(write(num, 65, &[], 0), at(Refused::BadScale, 0));
    }
    assert_eq!(write(1, 65, &[], 0), at(Refused::NoPage, 0));
    assert_eq!(write(1, usize::MAX, &[], 0), at(Refused::NoPage, 0));
    assert_eq!(write(1, 1, &[40000; 23], 0), at(Refused::NoRoom, 0));
    let mut x = [0; 72];
    (x[0], x[71]) = (32767, -32768);
    assert_eq!(write(1, 3, &x, 0), at(Refused::TooLarge, 2));
    let mut x = [0; 72];
    x[24] = 3907;
    x[48..].fill(5000);
    assert_eq!(write(1, 3, &x, 0), at(Refused::FarQuotient, 1));
    assert_eq!(write(8, 1, &lone(31251), 0), at(Refused::FarQuotient, 0));
    assert_eq!(write(8, 1, &lone(31251), PAGE_TEXT), at(Refused::FarQuotient, 0));
    assert_eq!(
        write(256, 1, &[i32::MIN; 24], PAGE_TEXT),
        at(Refused::TooLarge, 0)
    );
    assert_eq!(write(256, 0, &[], 33), at(Refused::NoRoom, 0));
    assert_eq!(
        write(1, 3, &x, 0).unwrap_err().to_string(),
        "block 1: a sample over the scale exceeds 1e6 in magnitude (refused with 4)"
    );
}

// The length is a cell that is lent: a refusal leaves it, too.
#[test]
fn length_untouched() {
    let mut length = 77;
    let answer = unsafe {
        raw::yultarvas_write_page(
            8,
            1,
            lone(31251).as_ptr(),
            24,
            std::ptr::NonNull::dangling().as_ptr(),
            0,
            &mut length,
        )
    };
    assert_eq!((answer, length), (4, 77));
}
