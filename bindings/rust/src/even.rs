//! The even profile, for a channel whose readers know even points alone: words whose p, bit 0, is 0, and
//! points whose coordinates are all even.
//!
//! A word or a point that the profile accepts is answered as by the function of the same name outside this
//! module. An odd word, one whose p is 1, is refused with [`Refused::AllOdd`], and so is a point whose
//! coordinates are all odd.
//!
//! [`encode`], [`encode_with`] and [`encode_at_scale`] search the even points alone, so that
//! [`Refused::AllOdd`] never comes up in them. Where the full coder's point is odd, theirs is another one. At
//! a scale, where the full coder's point is even, they give the same code; at the scale that the samples give
//! it can be another, also where both points are even.
//!
//! ```
//! use yultarvas::{even, Refused, PAGE_COUNTS};
//!
//! assert_eq!(even::check(0x3800), Ok(()));
//! assert_eq!(even::decode(0x3800), Ok(yultarvas::decode(0x3800)));
//! assert_eq!(even::decode(1), Err(Refused::AllOdd));
//! let samples = yultarvas::decode(1).map(f64::from); // an odd point
//! let code = even::encode_at_scale(&samples, 1.0, 8).unwrap();
//! assert_eq!(code.word, 0); // the full coder has word 1
//! let text = b"format=tetra-page\nnum=128\ncount=2\nword=000000003800\nword=000000000001\n";
//! let mut counts = [7; PAGE_COUNTS];
//! assert_eq!(even::read_page(text, &mut counts), Err(Refused::AllOdd));
//! assert_eq!(counts, [7; PAGE_COUNTS]); // one odd word, and nothing of the page is read
//! ```
use crate::{coded, raw, word_or_why, Code, Refused, BLOCK};

/// Whether the profile has a word: its p is 0. No other bit counts. Refused with [`Refused::AllOdd`].
pub fn check(word: u64) -> Result<(), Refused> {
    Refused::unless(unsafe { raw::yultarvas_even_check(word) }, ())
}

/// The point of a word, in natural order. Bits 47 and up are ignored. Refused with [`Refused::AllOdd`].
pub fn decode(word: u64) -> Result<[i32; BLOCK], Refused> {
    let mut point = [0; BLOCK];
    let number = unsafe { raw::yultarvas_even_decode(word, point.as_mut_ptr(), point.len()) };
    Refused::unless(number, point)
}

/// The word that decodes to a point, with gain 0. Refused with the first that fits of
/// [`Refused::MixedParity`]; [`Refused::AllOdd`] where all coordinates are odd, whether or not the point has
/// a word; [`Refused::NoCodeword`]; [`Refused::Outside`] with the lowest section that is outside its bound;
/// [`Refused::WrongSum`].
pub fn encode_point(point: &[i32; BLOCK]) -> Result<u64, Refused> {
    let mut word = 0;
    let number = unsafe { raw::yultarvas_even_encode_point(point.as_ptr(), point.len(), &mut word) };
    word_or_why(number, word, point)
}

/// The code of samples over the even points, at the scale that the samples give. Samples that are all zero
/// have word 0 and the score minus infinity. Refused with [`Refused::NotFinite`], else [`Refused::TooLarge`].
pub fn encode(samples: &[f64; BLOCK]) -> Result<Code, Refused> {
    let x = samples.as_ptr();
    coded(|word, point, score| unsafe { raw::yultarvas_even_encode(x, BLOCK, word, point, BLOCK, score) })
}

/// The same at a setting, as [`encode_with`](crate::encode_with) takes it. Refused with
/// [`Refused::BadSetting`], else as [`encode`].
pub fn encode_with(samples: &[f64; BLOCK], setting: u32) -> Result<Code, Refused> {
    let x = samples.as_ptr();
    coded(|word, point, score| unsafe {
        raw::yultarvas_even_encode_with(x, BLOCK, setting, word, point, BLOCK, score)
    })
}

/// The code of samples over the even points, at a scale and a setting. Refused with the first that fits of
/// [`Refused::BadSetting`], [`Refused::BadScale`], [`Refused::NotFinite`], [`Refused::TooLarge`],
/// [`Refused::FarQuotient`].
pub fn encode_at_scale(samples: &[f64; BLOCK], scale: f64, setting: u32) -> Result<Code, Refused> {
    let x = samples.as_ptr();
    coded(|word, point, score| unsafe {
        raw::yultarvas_even_encode_at_scale(x, BLOCK, scale, setting, word, point, BLOCK, score)
    })
}

/// The counts of a page that has no odd word into `counts`, as [`read_page`](crate::read_page) gives them,
/// and how many blocks it has. Refused with the first that fits of [`Refused::NoPage`], [`Refused::AllOdd`]
/// where any word is odd, [`Refused::NoRoom`]; then `counts` is as it was.
pub fn read_page(text: &[u8], counts: &mut [i32]) -> Result<usize, Refused> {
    let mut blocks = 0;
    let number = unsafe {
        raw::yultarvas_even_read_page(
            text.as_ptr(),
            text.len(),
            counts.as_mut_ptr(),
            counts.len(),
            &mut blocks,
        )
    };
    Refused::unless(number, blocks)
}
