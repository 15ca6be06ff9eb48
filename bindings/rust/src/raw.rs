//! The calls as the library has them, for callers that lend slices of their own. include/yultarvas.h says
//! what each one asks and answers: a slice is a pointer and its length, of which the first
//! [`BLOCK`](crate::BLOCK) places are meant; a call answers 0 or the number of the refusal, and on a refusal
//! writes nothing; `yultarvas_outside` answers a section.
//!
//! # Safety
//!
//! Each pointer is valid and aligned for its type over the stated length, and what is written overlaps
//! nothing else that is lent. Of a slice of length 0 the pointer is not used. No contract has any other
//! condition.

extern "C" {
    /// The point of a word.
    pub fn yultarvas_decode(word: u64, point: *mut i32, point_len: usize) -> u32;
    /// The word of a point.
    pub fn yultarvas_encode_point(point: *const i32, point_len: usize, word: *mut u64) -> u32;
    /// The section of a point that is outside its bound, where that is why it has no word; else 0.
    pub fn yultarvas_outside(point: *const i32, point_len: usize) -> u32;
    /// The code of samples at the scale that they give.
    pub fn yultarvas_encode(
        samples: *const f64,
        samples_len: usize,
        word: *mut u64,
        point: *mut i32,
        point_len: usize,
        score: *mut f64,
    ) -> u32;
    /// The same at a setting of the shrinks.
    pub fn yultarvas_encode_with(
        samples: *const f64,
        samples_len: usize,
        setting: u32,
        word: *mut u64,
        point: *mut i32,
        point_len: usize,
        score: *mut f64,
    ) -> u32;
    /// The code of samples at a scale and a setting of the shrinks.
    pub fn yultarvas_encode_at_scale(
        samples: *const f64,
        samples_len: usize,
        scale: f64,
        setting: u32,
        word: *mut u64,
        point: *mut i32,
        point_len: usize,
        score: *mut f64,
    ) -> u32;
    /// The largest magnitude of samples and the lower scale that they give.
    pub fn yultarvas_lower_scale(
        samples: *const f64,
        samples_len: usize,
        largest: *mut f64,
        scale: *mut f64,
    ) -> u32;
    /// The score of samples at a point.
    pub fn yultarvas_t_of(
        samples: *const f64,
        samples_len: usize,
        point: *const i32,
        point_len: usize,
        score: *mut f64,
    ) -> u32;
    /// The counts of a page, halves to even.
    pub fn yultarvas_read_page(
        text: *const u8,
        text_len: usize,
        counts: *mut i32,
        counts_len: usize,
        blocks: *mut usize,
    ) -> u32;
    /// The num and the words of a page.
    pub fn yultarvas_parse_page(
        text: *const u8,
        text_len: usize,
        num: *mut u32,
        words: *mut u64,
        words_len: usize,
        count: *mut usize,
    ) -> u32;
    /// The text of a page of whole samples. The answer has the number in its low 32 bits, and a block above
    /// them.
    pub fn yultarvas_write_page(
        num: u32,
        count: usize,
        samples: *const i32,
        samples_len: usize,
        text: *mut u8,
        text_len: usize,
        length: *mut usize,
    ) -> u64;
    /// The summary of a page.
    pub fn yultarvas_summarise(
        text: *const u8,
        text_len: usize,
        rows: *mut i32,
        rows_len: usize,
        blocks: *mut usize,
    ) -> u32;
    /// Whether rows begin with the summary of a page.
    pub fn yultarvas_check_summary(
        text: *const u8,
        text_len: usize,
        rows: *const i32,
        rows_len: usize,
    ) -> u32;
    /// The summary of a page, brought up to date for one word more.
    pub fn yultarvas_add_word(
        text: *const u8,
        text_len: usize,
        word: u64,
        rows: *mut i32,
        rows_len: usize,
        blocks: *mut usize,
    ) -> u32;
    /// Whether the even profile has a word.
    pub fn yultarvas_even_check(word: u64) -> u32;
    /// The point of a word, in the even profile.
    pub fn yultarvas_even_decode(word: u64, point: *mut i32, point_len: usize) -> u32;
    /// The word of a point, in the even profile.
    pub fn yultarvas_even_encode_point(point: *const i32, point_len: usize, word: *mut u64) -> u32;
    /// The code of samples over the even points, at the scale that the samples give.
    pub fn yultarvas_even_encode(
        samples: *const f64,
        samples_len: usize,
        word: *mut u64,
        point: *mut i32,
        point_len: usize,
        score: *mut f64,
    ) -> u32;
    /// The same at a setting of the shrinks.
    pub fn yultarvas_even_encode_with(
        samples: *const f64,
        samples_len: usize,
        setting: u32,
        word: *mut u64,
        point: *mut i32,
        point_len: usize,
        score: *mut f64,
    ) -> u32;
    /// The code of samples over the even points, at a scale and a setting of the shrinks.
    pub fn yultarvas_even_encode_at_scale(
        samples: *const f64,
        samples_len: usize,
        scale: f64,
        setting: u32,
        word: *mut u64,
        point: *mut i32,
        point_len: usize,
        score: *mut f64,
    ) -> u32;
    /// The counts of a page that has no odd word.
    pub fn yultarvas_even_read_page(
        text: *const u8,
        text_len: usize,
        counts: *mut i32,
        counts_len: usize,
        blocks: *mut usize,
    ) -> u32;
    /// Three sums of doubles, to be called with 1.0 and 2^-1074.
    pub fn yultarvas_environment(one: f64, least: f64) -> u32;
}
