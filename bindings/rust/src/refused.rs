//! Why a call was refused, and what is wrong with a thread's doubles.
//!
//! A number that a later library answers becomes a variant, a line of `about` and one of `from_number`. A
//! call whose refusal comes with a block answers a [`RefusedAt`]; that of a point may come with a section,
//! which is a field of the variant.
use core::error::Error;
use core::fmt;

/// Why a call was refused. A later version may have further reasons.
#[derive(Clone, Copy, Debug, PartialEq, Eq, Hash)]
#[non_exhaustive]
pub enum Refused {
    /// 1: a sample is NaN or infinite.
    NotFinite,
    /// 2: a sample's magnitude exceeds 1e290; one of a page that is written, 32767.
    TooLarge,
    /// 3: the scale is not a finite number above 0; a page's num, not from 1 to 65535.
    BadScale,
    /// 4: a sample over the scale exceeds 1e6 in magnitude.
    FarQuotient,
    /// 5: no word decodes to the point: its coordinates are not all even or all odd.
    MixedParity,
    /// 7: the setting of the shrinks is 0.
    BadSetting,
    /// 8: a slice is too short for what goes into it.
    NoRoom,
    /// 9: the text is no page; or there are more blocks than a page has.
    NoPage,
    /// 10: no word decodes to the point: its coordinates that are 2 or 3 modulo 4 are no codeword.
    NoCodeword,
    /// 11: no word decodes to the point: a section of it is outside its bound.
    Outside {
        /// The lowest such section: 1, 2 or 3.
        section: u32,
    },
    /// 12: no word decodes to the point: the sum of its coordinates' quarters, each rounded down, is odd where
    /// they are even, or even where they are odd.
    WrongSum,
    /// 13: not in the [`even`](crate::even) profile: a word's p is 1, or a point's coordinates are all odd.
    AllOdd,
    /// 14: the summary and the page disagree.
    Disagrees,
    /// A number that this version of the crate has no name for.
    Other(u32),
}

impl Refused {
    /// The number of the refusal, as documents and other languages have it.
    pub const fn number(self) -> u32 {
        self.about().0
    }

    /// Whether this says that no word decodes to a point, which [`encode_point`](crate::encode_point) says in
    /// four ways. [`Refused::AllOdd`] does not: the [`even`](crate::even) profile refuses every point whose
    /// coordinates are all odd, and such a point may have a word.
    pub const fn no_word(self) -> bool {
        matches!(
            self,
            Refused::MixedParity | Refused::NoCodeword | Refused::Outside { .. } | Refused::WrongSum
        )
    }

    /// The number and its sentence.
    const fn about(self) -> (u32, &'static str) {
        match self {
            Refused::NotFinite => (1, "a sample is NaN or infinite"),
            Refused::TooLarge => (2, "a sample's magnitude exceeds 1e290, or 32767 in a page"),
            Refused::BadScale => (
                3,
                "the scale is not a finite number above 0, or num not from 1 to 65535",
            ),
            Refused::FarQuotient => (4, "a sample over the scale exceeds 1e6 in magnitude"),
            Refused::MixedParity => (
                5,
                "the point has no word: its coordinates are not all even or all odd",
            ),
            Refused::BadSetting => (7, "the setting of the shrinks is 0"),
            Refused::NoRoom => (8, "a slice is too short"),
            Refused::NoPage => (9, "the text is no page, or has too many blocks"),
            Refused::NoCodeword => (
                10,
                "the point has no word: the coordinates that are 2 or 3 modulo 4 are no codeword; \
                 some coordinates would have to change by 2",
            ),
            Refused::Outside { section: 1 } => (
                11,
                "the point has no word: section 1 (coordinates 0, 1, 2, 3, 4, 7, 10, 12) is outside its \
                 bound; it needs smaller values",
            ),
            Refused::Outside { section: 2 } => (
                11,
                "the point has no word: section 2 (coordinates 6, 11, 13, 14, 16, 17, 18, 19) is outside \
                 its bound; it needs smaller values",
            ),
            Refused::Outside { .. } => (
                11,
                "the point has no word: section 3 (coordinates 5, 8, 9, 15, 20, 21, 22, 23) is outside \
                 its bound; it needs smaller values",
            ),
            Refused::WrongSum => (
                12,
                "the point has no word: the sum of its coordinates' quarters, each rounded down, is odd \
                 where they are even, or even where they are odd; changing one by 4 mends it",
            ),
            Refused::AllOdd => (
                13,
                "the even profile has no odd points: a word's p is 1, or a point's coordinates are all odd",
            ),
            Refused::Disagrees => (14, "the summary and the page disagree"),
            Refused::Other(number) => (
                number,
                "the library has a reason that this version of the crate does not know",
            ),
        }
    }

    /// 11 is not here: it comes with a section, and `word_or_why` makes the refusal.
    const fn from_number(number: u32) -> Refused {
        match number {
            1 => Refused::NotFinite,
            2 => Refused::TooLarge,
            3 => Refused::BadScale,
            4 => Refused::FarQuotient,
            5 => Refused::MixedParity,
            7 => Refused::BadSetting,
            8 => Refused::NoRoom,
            9 => Refused::NoPage,
            10 => Refused::NoCodeword,
            12 => Refused::WrongSum,
            13 => Refused::AllOdd,
            14 => Refused::Disagrees,
            other => Refused::Other(other),
        }
    }

    /// The value where the number is 0, and otherwise the refusal.
    pub(crate) fn unless<T>(number: u32, value: T) -> Result<T, Refused> {
        if number == 0 {
            Ok(value)
        } else {
            Err(Refused::from_number(number))
        }
    }
}

impl fmt::Display for Refused {
    fn fmt(&self, f: &mut fmt::Formatter<'_>) -> fmt::Result {
        let (number, sentence) = self.about();
        write!(f, "{sentence} (refused with {number})")
    }
}

impl Error for Refused {}

/// Why a page was not written, and the block that it is about: of [`Refused::TooLarge`] and
/// [`Refused::FarQuotient`] the lowest block that has it, else 0.
#[derive(Clone, Copy, Debug, PartialEq, Eq, Hash)]
pub struct RefusedAt {
    /// The reason.
    pub refused: Refused,
    /// The block.
    pub block: usize,
}

impl RefusedAt {
    /// The number of the refusal.
    pub const fn number(self) -> u32 {
        self.refused.number()
    }

    /// The value where the answer's number, its low 32 bits, is 0, and otherwise the refusal with the block
    /// that stands above them.
    pub(crate) fn unless<T>(answer: u64, value: T) -> Result<T, RefusedAt> {
        let block = (answer >> 32) as usize;
        Refused::unless(answer as u32, value).map_err(|refused| RefusedAt { refused, block })
    }
}

impl fmt::Display for RefusedAt {
    fn fmt(&self, f: &mut fmt::Formatter<'_>) -> fmt::Result {
        match self.refused {
            Refused::TooLarge | Refused::FarQuotient => write!(f, "block {}: {}", self.block, self.refused),
            _ => self.refused.fmt(f),
        }
    }
}

impl Error for RefusedAt {}

/// What is wrong with the doubles of a thread. A later version may look for more.
#[derive(Clone, Copy, Debug, PartialEq, Eq, Hash)]
#[non_exhaustive]
pub enum Environment {
    /// Sums are not rounded to nearest, ties to even.
    OtherRounding,
    /// A subnormal number is taken for 0.
    NoSubnormals,
}

impl Environment {
    pub(crate) fn unless(answer: u32) -> Result<(), Environment> {
        match answer {
            0 => Ok(()),
            1 => Err(Environment::OtherRounding),
            _ => Err(Environment::NoSubnormals),
        }
    }
}

impl fmt::Display for Environment {
    fn fmt(&self, f: &mut fmt::Formatter<'_>) -> fmt::Result {
        f.write_str(match self {
            Environment::OtherRounding => {
                "this thread does not round sums of doubles to nearest, ties to even"
            }
            Environment::NoSubnormals => "this thread takes subnormal numbers for 0",
        })
    }
}

impl Error for Environment {}
