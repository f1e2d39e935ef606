//! The codes that the functions for C return.

use std::error::Error;
use std::fmt;

/// What Advance returns while holes are due.
pub(crate) const MORE: u32 = 100;

/// What Compare returns.
pub(crate) const BEFORE: u32 = 102;
pub(crate) const BEFORE_AT: u32 = 103;
pub(crate) const SAME: u32 = 104;
pub(crate) const AFTER_AT: u32 = 105;
pub(crate) const AFTER: u32 = 106;

/// The enum, the list of its cases and their words, from one table of names, numbers and words.
macro_rules! refusals {
    ($($name:ident = $number:literal: $words:literal,)*) => {
        /// Why a call says no, in the order of the numbers (S 5.1).
        #[derive(Clone, Copy, Debug, PartialEq, Eq)]
        pub enum Refusal {
            $(#[doc = $words] $name = $number,)*
        }

        const ALL: &[Refusal] = &[$(Refusal::$name,)*];

        impl Refusal {
            /// The words of `include/rulmedei.h`: a sentence for everybody, and for some behind a colon what it means
            /// for a caller's buffers and numbers.
            pub fn words(self) -> &'static str {
                match self {
                    $(Refusal::$name => $words,)*
                }
            }
        }
    };
}

refusals! {
    SideUnknown = 1: "the side must be 2, 4, 8, 16, 32, 64, 128 or 256",
    GreysShort = 2: "the map has more cells than there is room for: a greys buffer is below N * N",
    PyramidShort = 3: "too little room for the sums: the pyramid is shorter than needed",
    SheetShort = 4: "too little room for the holes: serials or order < N * N, shelf < n * N * N",
    SheetUnsound = 5: "the sheet is not sound, its parts do not fit: Load and Advance leave none such",
    BlockUnknown = 6: "the map has no such level, or no such panel: row or column not below 2^level",
    TextMalformed = 7: "the text is not written as a map or sketch must be: it does not fit the grammar",
    OutputShort = 8: "too little room for the output: its text, a list of n, or 4^level caps",
    InputLong = 9: "the input is longer than 4,099 bytes: plate and two_heads, none of the calls",
    NameUnknown = 10: "no such name, or no such stage: not 1 to 8; on return empty, or past the total",
    KnitUnknown = 11: "the cloth must be plain or ribbed: the knit is neither 0 nor 1",
    GreyHigh = 12: "a grey is above 240, the darkest that a map or a sketch may have",
    PairFalls = 13: "a cell of the sketch has its low above its high",
    SideSmall = 14: "the side is below 16, too small for two heads",
}

impl Refusal {
    /// Its number (S 5.1).
    pub fn number(self) -> u32 {
        self as u32
    }

    /// The sentence for everybody: the words up to a colon, as the scripts of the programs say them.
    pub fn sentence(self) -> &'static str {
        self.words().split(':').next().unwrap_or_default()
    }
}

impl fmt::Display for Refusal {
    fn fmt(&self, f: &mut fmt::Formatter<'_>) -> fmt::Result {
        write!(f, "refused, {}: {}", self.number(), self.words())
    }
}

impl Error for Refusal {}

/// What a code says: 0 that the call did its work, any other the refusal of that number. (Further codes of the
/// sixteen calls are 100 of Advance and 102 to 106 of Compare, and no others.)
pub(crate) fn did(code: u32) -> Result<(), Refusal> {
    if code == 0 {
        return Ok(());
    }
    Err(refused(code))
}

/// The refusal of a number.
pub(crate) fn refused(number: u32) -> Refusal {
    let refusal = ALL.iter().find(|refusal| refusal.number() == number);
    *refusal.expect("a code that is no answer is the number of a refusal")
}
