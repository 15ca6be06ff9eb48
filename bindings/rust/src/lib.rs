//! Words, points and samples of motor current traces: safe calls of the static library `libyultarvas.a`,
//! every function of which is proved against its contract.
//!
//! A block is [`BLOCK`] samples, and has one 48-bit word, which stands for a point of the Leech lattice. A
//! trace page holds up to [`PAGE_BLOCKS`] words, and a summary kept beside it says how large they are. The
//! module [`even`] has the calls for a channel that knows even points alone. A call that is refused answers a
//! [`Refused`], whose [`Refused::number`] is the one that documents and other languages use.
//!
//! **Doubles.** The contracts are over IEEE 754 doubles, rounded to nearest with ties to even, subnormal
//! numbers kept, as a thread starts. A program that calls C code which sets another rounding mode or
//! flush-to-zero gets other answers with no refusal; [`environment`] tells.
//!
//! **Stack.** [`encode`], [`encode_with`], [`encode_at_scale`], the same three of [`even`] and [`write_page`]
//! take up to 137 KB of stack (136,152 bytes on x86-64; tools/stack.sh measures it, and no theorem bounds
//! it): more than some threads have. Have [`STACK`] bytes left.
//!
//! **Memory.** Code and constants of the library take 82 KB on x86-64 (tools/rom.sh measures them).
//!
//! **Threads.** No call keeps anything, allocates or locks: any number of threads may call at once.
//!
//! ```
//! use yultarvas::{add_word, check_summary, decode, encode, encode_point, environment, parse_page};
//! use yultarvas::{read_page, summarise, write_page, PAGE_COUNTS, PAGE_SUMMARY, PAGE_TEXT};
//!
//! fn main() -> Result<(), Box<dyn std::error::Error>> {
//!     environment()?; // once, at start-up
//!     let samples = std::array::from_fn(|k| (k as f64 * 0.3).sin());
//!     let code = encode(&samples)?; // the word, its point and the score, at the scale that the samples give
//!     assert_eq!(decode(code.word), code.point);
//!     assert_eq!(encode_point(&code.point), Ok(code.word));
//!     let text = b"format=tetra-page\nnum=128\ncount=1\nword=000000000001\n";
//!     let mut counts = [0; PAGE_COUNTS]; // places for any page
//!     let blocks = read_page(text, &mut counts)?;
//!     println!("{:?}", &counts[..24 * blocks]);
//!     assert_eq!(parse_page(text)?.words(), [1]);
//!     let mut page = [0; PAGE_TEXT]; // places for any page
//!     let length = write_page(128, blocks, &counts, &mut page)?; // a page of those counts
//!     assert_eq!(parse_page(&page[..length])?.num(), 128);
//!     let mut rows = [0; PAGE_SUMMARY]; // places for any summary
//!     assert_eq!(summarise(text, &mut rows)?, 1);
//!     check_summary(text, &rows)?;
//!     assert_eq!(add_word(text, 0x3800, &mut rows)?, 2); // as for the page of 1 and 3800
//!     assert_eq!(rows[..4], [64, 4, -3, 1]); // squares, largest, smallest, odd blocks
//!     Ok(())
//! }
//! ```
#![no_std]
#![warn(missing_docs)]

pub mod even;
pub mod raw;
mod refused;

use core::hint::black_box;
pub use refused::{Environment, Refused, RefusedAt};

/// Samples of a block, and coordinates of a point.
pub const BLOCK: usize = 24;
/// The most blocks that a page has.
pub const PAGE_BLOCKS: usize = 64;
/// The most counts that a page has.
pub const PAGE_COUNTS: usize = PAGE_BLOCKS * BLOCK;
/// The most bytes that a page's text has.
pub const PAGE_TEXT: usize = 1189;
/// The most cells that a page's summary has: 4 in the page's row, and 4 for each block.
pub const PAGE_SUMMARY: usize = 4 * (PAGE_BLOCKS + 1);

/// Bytes of stack that a thread should have left for any one call: more than twice what was measured.
pub const STACK: usize = 320 * 1024;

/// A block's code. A later version may add fields.
#[derive(Clone, Copy, Debug, PartialEq)]
#[non_exhaustive]
pub struct Code {
    /// The word, with gain 0.
    pub word: u64,
    /// The point that the word decodes to, in natural order.
    pub point: [i32; BLOCK],
    /// The score of the samples at the point; minus infinity at the origin.
    pub score: f64,
}

/// What samples say about their scale.
#[derive(Clone, Copy, Debug, PartialEq)]
#[non_exhaustive]
pub struct Scales {
    /// The largest magnitude of the samples.
    pub largest: f64,
    /// The lower of the two scales that [`encode`] tries; +0.0 where all samples are zero.
    pub scale: f64,
}

/// A page's num and words.
#[derive(Clone, Copy, Debug, PartialEq, Eq)]
pub struct Page {
    num: u32,
    count: usize,
    words: [u64; PAGE_BLOCKS],
}

impl Page {
    /// What a coordinate is multiplied by, over 256, to give a count.
    pub const fn num(&self) -> u32 {
        self.num
    }

    /// The words of the page's blocks, in order.
    pub fn words(&self) -> &[u64] {
        &self.words[..self.count]
    }
}

const EMPTY: Code = Code {
    word: 0,
    point: [0; BLOCK],
    score: 0.0,
};

// Each pointer below, and in `even`, is that of a live reference or slice, with its own length, and what is
// written is borrowed mutably: this is all that the library asks of its callers, since no contract has a
// condition.

/// The point of a word, in natural order. Bits 47 and up are ignored.
pub fn decode(word: u64) -> [i32; BLOCK] {
    let mut point = [0; BLOCK];
    // 24 places are enough, and nothing else is refused.
    unsafe { raw::yultarvas_decode(word, point.as_mut_ptr(), point.len()) };
    point
}

/// The word that decodes to a point, with gain 0. Where there is none, refused with the first that fits of
/// [`Refused::MixedParity`], [`Refused::NoCodeword`], [`Refused::Outside`] with the lowest section that is
/// outside its bound, [`Refused::WrongSum`]; [`Refused::no_word`] holds of each.
pub fn encode_point(point: &[i32; BLOCK]) -> Result<u64, Refused> {
    let mut word = 0;
    let number = unsafe { raw::yultarvas_encode_point(point.as_ptr(), point.len(), &mut word) };
    word_or_why(number, word, point)
}

/// The word where a point's number is 0, and otherwise the refusal. 11 comes with a section, which another
/// call answers, since one that refuses writes nothing.
fn word_or_why(number: u32, word: u64, point: &[i32; BLOCK]) -> Result<u64, Refused> {
    if number != 11 {
        return Refused::unless(number, word);
    }
    let section = unsafe { raw::yultarvas_outside(point.as_ptr(), point.len()) };
    Err(Refused::Outside { section })
}

/// The code of samples at the scale that they give: what a recorder calls. Samples that are all zero have
/// word 0 and the score minus infinity. Refused with [`Refused::NotFinite`], else [`Refused::TooLarge`].
pub fn encode(samples: &[f64; BLOCK]) -> Result<Code, Refused> {
    let x = samples.as_ptr();
    coded(|word, point, score| unsafe { raw::yultarvas_encode(x, BLOCK, word, point, BLOCK, score) })
}

/// The code of samples at the scale that they give and at a setting, the number of shrinks that the search
/// tries; all from 8 up are the same, and [`encode`] uses 8. Refused with [`Refused::BadSetting`], else as
/// [`encode`].
pub fn encode_with(samples: &[f64; BLOCK], setting: u32) -> Result<Code, Refused> {
    let x = samples.as_ptr();
    coded(|word, point, score| unsafe {
        raw::yultarvas_encode_with(x, BLOCK, setting, word, point, BLOCK, score)
    })
}

/// The code of samples at a scale and a setting. Refused with the first that fits of
/// [`Refused::BadSetting`], [`Refused::BadScale`], [`Refused::NotFinite`], [`Refused::TooLarge`],
/// [`Refused::FarQuotient`].
pub fn encode_at_scale(samples: &[f64; BLOCK], scale: f64, setting: u32) -> Result<Code, Refused> {
    let x = samples.as_ptr();
    coded(|word, point, score| unsafe {
        raw::yultarvas_encode_at_scale(x, BLOCK, scale, setting, word, point, BLOCK, score)
    })
}

/// The code that a call leaves in the cells that it is lent, or its refusal.
fn coded(call: impl FnOnce(*mut u64, *mut i32, *mut f64) -> u32) -> Result<Code, Refused> {
    let mut code = EMPTY;
    let number = call(&mut code.word, code.point.as_mut_ptr(), &mut code.score);
    Refused::unless(number, code)
}

/// The largest magnitude of samples, and the lower of the two scales that [`encode`] tries. Refused as
/// [`encode`].
pub fn lower_scale(samples: &[f64; BLOCK]) -> Result<Scales, Refused> {
    let mut s = Scales {
        largest: 0.0,
        scale: 0.0,
    };
    let number = unsafe { raw::yultarvas_lower_scale(samples.as_ptr(), BLOCK, &mut s.largest, &mut s.scale) };
    Refused::unless(number, s)
}

/// The score of samples at a point: samples times point over the root of point times point, minus infinity at
/// the origin. Refused as [`encode`].
pub fn t_of(samples: &[f64; BLOCK], point: &[i32; BLOCK]) -> Result<f64, Refused> {
    let mut score = 0.0;
    let number = unsafe { raw::yultarvas_t_of(samples.as_ptr(), BLOCK, point.as_ptr(), BLOCK, &mut score) };
    Refused::unless(number, score)
}

/// The counts of a page into `counts`, [`BLOCK`] per block, and how many blocks it has. A count is the
/// coordinate times num / 256, to the nearest whole number, and a half to the even one (since 0.5.0; before,
/// away from zero). [`PAGE_COUNTS`] places hold any page. Refused with [`Refused::NoPage`], else
/// [`Refused::NoRoom`], and then `counts` is as it was.
pub fn read_page(text: &[u8], counts: &mut [i32]) -> Result<usize, Refused> {
    let mut blocks = 0;
    let number = unsafe {
        raw::yultarvas_read_page(
            text.as_ptr(),
            text.len(),
            counts.as_mut_ptr(),
            counts.len(),
            &mut blocks,
        )
    };
    Refused::unless(number, blocks)
}

/// The num and the words of a page. Refused with [`Refused::NoPage`].
pub fn parse_page(text: &[u8]) -> Result<Page, Refused> {
    let mut p = Page {
        num: 0,
        count: 0,
        words: [0; PAGE_BLOCKS],
    };
    let words = p.words.as_mut_ptr();
    let number = unsafe {
        raw::yultarvas_parse_page(
            text.as_ptr(),
            text.len(),
            &mut p.num,
            words,
            PAGE_BLOCKS,
            &mut p.count,
        )
    };
    Refused::unless(number, p)
}

/// The text of the page of `num` and of `count` blocks, [`BLOCK`] whole samples each, into `text`, and its
/// length: [`read_page`] and [`parse_page`] accept it, with the same num and the same words. Each block is
/// coded by [`encode_at_scale`] at the scale num / 256 and the setting 8. Samples behind `24 * count` are not
/// looked at. [`PAGE_TEXT`] places hold any page.
///
/// Refused with the first that fits of [`Refused::BadScale`] for a num that is 0 or above 65535,
/// [`Refused::NoPage`] for more than [`PAGE_BLOCKS`] blocks, [`Refused::NoRoom`] for fewer samples than
/// [`BLOCK`] a block, [`Refused::TooLarge`] for a sample beyond 32767 in magnitude in any block,
/// [`Refused::FarQuotient`] likewise, [`Refused::NoRoom`] for the text; then `text` is as it was.
pub fn write_page(num: u32, count: usize, samples: &[i32], text: &mut [u8]) -> Result<usize, RefusedAt> {
    let mut length = 0;
    let answer = unsafe {
        raw::yultarvas_write_page(
            num,
            count,
            samples.as_ptr(),
            samples.len(),
            text.as_mut_ptr(),
            text.len(),
            &mut length,
        )
    };
    RefusedAt::unless(answer, length)
}

/// The summary of a page into `rows`, and how many blocks the page has.
///
/// It has rows of 4 cells: first the page's row, then one for each block. A block's row has the sum of
/// squares of the coordinates of its point, the largest coordinate, the smallest one, and the parity p, which
/// is bit 0 of the word. The page's row has the total of those sums, the largest and the smallest coordinate
/// over all blocks, and how many blocks have p = 1; of a page with no blocks it is all zeros. Neither num nor
/// bit 47 of a word changes anything in it. That makes `4 * (n + 1)` cells for n blocks; those behind stay as
/// they were. [`PAGE_SUMMARY`] cells hold the summary of any page.
///
/// Refused with [`Refused::NoPage`], else [`Refused::NoRoom`], and then `rows` is as it was.
pub fn summarise(text: &[u8], rows: &mut [i32]) -> Result<usize, Refused> {
    let mut blocks = 0;
    let number = unsafe {
        raw::yultarvas_summarise(
            text.as_ptr(),
            text.len(),
            rows.as_mut_ptr(),
            rows.len(),
            &mut blocks,
        )
    };
    Refused::unless(number, blocks)
}

/// Whether `rows` begin with the summary of a page, as [`summarise`] makes it. Cells behind it are not looked
/// at. Refused with [`Refused::NoPage`], else [`Refused::NoRoom`] for fewer cells than the summary has, else
/// [`Refused::Disagrees`] where a cell is another.
pub fn check_summary(text: &[u8], rows: &[i32]) -> Result<(), Refused> {
    let number =
        unsafe { raw::yultarvas_check_summary(text.as_ptr(), text.len(), rows.as_ptr(), rows.len()) };
    Refused::unless(number, ())
}

/// Brings the summary of a page up to date for one word more, of which the low 48 bits count: what is left in
/// `rows` is the summary of the page with that word behind the others, and the answer is how many blocks that
/// page has. The page's row and the new block's row are written, and no other cell.
///
/// The text is not changed. The longer page's text is the caller's to make, with one more in its count line
/// and a word line more ([`parse_page`] gives num and the words), and it is what the next call takes. With
/// the text of before, this call and [`check_summary`] then answer [`Refused::Disagrees`], unless the word's
/// point is all zeros, which can leave the page's row as it was.
///
/// Refused with the first that fits of [`Refused::NoPage`] for a text that is no page or a page of
/// [`PAGE_BLOCKS`] blocks, [`Refused::NoRoom`] for fewer cells than the longer summary has, `4 * (n + 2)` for
/// a page of n blocks, [`Refused::Disagrees`] where `rows` do not begin with the page's summary; then `rows`
/// is as it was.
pub fn add_word(text: &[u8], word: u64, rows: &mut [i32]) -> Result<usize, Refused> {
    let mut blocks = 0;
    let number = unsafe {
        raw::yultarvas_add_word(
            text.as_ptr(),
            text.len(),
            word,
            rows.as_mut_ptr(),
            rows.len(),
            &mut blocks,
        )
    };
    Refused::unless(number, blocks)
}

/// Whether sums of doubles come out on this thread as the contracts say: to be asked once at start-up, and
/// after foreign code that may have changed it.
pub fn environment() -> Result<(), Environment> {
    let (one, least) = (black_box(1.0), black_box(f64::from_bits(1)));
    Environment::unless(unsafe { raw::yultarvas_environment(one, least) })
}
