//! Document 01 and requests K1, K2 and K4 of document 02 a second time, from outside: `reckoning` follows their
//! sentences and shares nothing with the library's sources or tables; `fast` is the reckoning written
//! for speed, for the benchmark. The types below carry answers and hold no rule; they have the names
//! and fields of the bindings', but are not those. Only the programs in `bin` call the library.

pub mod fast;
pub mod reckoning;

/// A refusal by document 01's number; the byte of the record at fault where a book is refused.
#[derive(Clone, Copy, Debug, PartialEq, Eq)]
pub struct Refusal {
    pub number: u64,
    pub byte: Option<usize>,
}

impl Refusal {
    /// A refusal that has nothing to do with a place in a book.
    pub const fn number(number: u64) -> Refusal {
        Refusal { number, byte: None }
    }
}

/// One of the two books of request K1.
#[derive(Clone, Copy, Debug, PartialEq, Eq)]
pub enum Which {
    Corrections,
    Main,
}

/// A year's part of one of the two books, and which book it came from.
#[derive(Clone, Copy, Debug, PartialEq, Eq)]
pub struct CorrectedYear<'a> {
    pub which: Which,
    pub part: &'a [u8],
}

/// A refusal of request K1; a book's refusal also says which book.
#[derive(Clone, Copy, Debug, PartialEq, Eq)]
pub struct CorrectedRefusal {
    pub refusal: Refusal,
    pub which: Option<Which>,
}

impl CorrectedRefusal {
    /// A refusal that is neither book's.
    pub const fn number(number: u64) -> CorrectedRefusal {
        CorrectedRefusal { refusal: Refusal::number(number), which: None }
    }
}

/// The answer of request K4: every record of a book is ours, or the first byte of the first that isn't.
#[derive(Clone, Copy, Debug, PartialEq, Eq)]
pub enum Verdict {
    Ours,
    NotOurs { byte: usize },
}

/// The mean winter solstice of a year; the fraction of its day in thousand-millionths.
#[derive(Clone, Copy, Debug, Default, PartialEq, Eq)]
pub struct Solstice {
    pub day_name: u64,
    pub fraction: u64,
    pub mansion: u64,
}

/// A term's printed day and minute, and the number of midnights visited to find it.
#[derive(Clone, Copy, Debug, Default, PartialEq, Eq)]
pub struct Term {
    pub day: i64,
    pub minute: u64,
    pub count: u64,
}

/// A day and a minute of it, at the capital or at a place.
#[derive(Clone, Copy, Debug, Default, PartialEq, Eq)]
pub struct Moment {
    pub day: i64,
    pub minute: u64,
}

/// The values of a year in a term book; its terms are in order, term 0 first.
#[derive(Clone, Copy, Debug, Default, PartialEq, Eq)]
pub struct Year {
    pub n: i64,
    pub day_name: u64,
    pub mansion: u64,
    pub terms: [Moment; 24],
}
