//! The sun and the 24 solar terms as the Qing bureau reckoned them (epoch 1684): the calls of
//! `libbhromilun.a`, whose answers are proved.
//!
//! ```
//! # fn main() -> Result<(), bhromilun::Refusal> {
//! for (k, term) in bhromilun::terms(0)?.iter().enumerate() {
//!     println!("term {k}: day {}, {:02}:{:02}", term.day, term.minute / 60, term.minute % 60);
//! }
//! # Ok(())
//! # }
//! ```
//!
//! `N` is the number of years from 1684, -2,000 to 2,000. Day 0 is the day whose midnight follows the mean
//! winter solstice's day. Minutes are those of the day, 0 to 1,439. Angles are in units, 60,000,000 to one
//! second of arc. Any number may be given to any call: it is answered, or refused by a [`Refusal`].
//!
//! The calls are safe, keep nothing between them, and may be made from any number of threads.
//! [`plain`] has them in their C shape, for a caller with arrays of its own.
//!
//! `bash bindings/build`, at the project's root, writes the library for each target that it knows below
//! `target/staticlib`, where the build looks for it; the environment variable `BHROMILUN_LIB`, if set, is the
//! whole path of another folder.

pub mod plain;

use std::fmt;

/// The bytes of a year in a term book.
const YEAR_BYTES: usize = 149;

/// Why a call gave no answer, by document 01's number.
///
/// | No. | Given exactly when |
/// |---|---|
/// | 1 | an N outside -2,000 to 2,000 |
/// | 2 | a day outside -4 to 370, or a minute above 1,439 |
/// | 3 | a term above 23 |
/// | 4 | a longitude beyond 648,000″ either way |
/// | 6 | a buffer under 149 bytes |
/// | 7 | the book ends inside a record |
/// | 8 | a kind of record that is neither 01 nor 02 |
/// | 9 | a field out of its range, read from a book or given to be written |
/// | 10 | a record out of turn, the book ends inside a year, or a single year is read from no bytes |
/// | 12 | a year absent from a sound book, or from both where there are two |
///
/// It prints as its number and these words:
///
/// ```
/// let refusal = bhromilun::check_book(&[1, 7, 0xd0, 60, 6]).unwrap_err();
/// assert_eq!(refusal.to_string(), "refused 9 at byte 0: a field out of its range");
/// ```
#[derive(Clone, Copy, Debug, PartialEq, Eq)]
pub struct Refusal {
    pub number: u64,
    /// Of a book that is refused, the byte where the record at fault starts; where the book ends between
    /// records inside a year, that is its length.
    pub byte: Option<usize>,
}

impl Refusal {
    /// Prints it, and of which book it is where there are two.
    fn print(&self, which: Option<Which>, f: &mut fmt::Formatter<'_>) -> fmt::Result {
        write!(f, "refused {}", self.number)?;
        if let Some(byte) = self.byte {
            write!(f, " at byte {byte}")?;
        }
        if let Some(which) = which {
            write!(f, " of {which}")?;
        }
        let words = match self.number {
            1 => "an N outside -2,000 to 2,000",
            2 => "a day outside -4 to 370, or a minute above 1,439",
            3 => "a term above 23",
            4 => "a longitude beyond 648,000″ either way",
            6 => "a buffer under 149 bytes",
            7 => "the book ends inside a record",
            8 => "a kind of record that is neither 01 nor 02",
            9 => "a field out of its range",
            10 => "a record out of turn, or the book ends inside a year",
            12 => "a year absent from a sound book",
            _ => return Ok(()),
        };
        write!(f, ": {words}")
    }
}

impl fmt::Display for Refusal {
    fn fmt(&self, f: &mut fmt::Formatter<'_>) -> fmt::Result {
        self.print(None, f)
    }
}

impl std::error::Error for Refusal {}

/// One of the two books of [`corrected_year`]. It prints as "the corrections" or "the main book".
#[derive(Clone, Copy, Debug, PartialEq, Eq)]
pub enum Which {
    /// The short book of years that were corrected by hand.
    Corrections,
    Main,
}

impl fmt::Display for Which {
    fn fmt(&self, f: &mut fmt::Formatter<'_>) -> fmt::Result {
        f.write_str(match self {
            Which::Corrections => "the corrections",
            Which::Main => "the main book",
        })
    }
}

/// A refusal of [`corrected_year`]: a book's also says which book.
///
/// ```
/// let refused = bhromilun::corrected_year(&[1, 7, 0xd0, 60, 6], &[], 0).unwrap_err();
/// let words = "refused 9 at byte 0 of the corrections: a field out of its range";
/// assert_eq!(refused.to_string(), words);
/// let refused = bhromilun::corrected_year(&[], &[], 0).unwrap_err();
/// assert_eq!(refused.to_string(), "refused 12: a year that neither book has");
/// ```
#[derive(Clone, Copy, Debug, PartialEq, Eq)]
pub struct CorrectedRefusal {
    pub refusal: Refusal,
    /// The book that is refused 7, 8, 9 or 10; 1 and 12 are refusals of neither.
    pub which: Option<Which>,
}

impl fmt::Display for CorrectedRefusal {
    fn fmt(&self, f: &mut fmt::Formatter<'_>) -> fmt::Result {
        match self.refusal.number {
            12 => f.write_str("refused 12: a year that neither book has"),
            _ => self.refusal.print(self.which, f),
        }
    }
}

impl std::error::Error for CorrectedRefusal {}

/// The mean winter solstice of a year.
#[derive(Clone, Copy, Debug, Default, PartialEq, Eq)]
pub struct Solstice {
    /// 0 to 59, from jiazi.
    pub day_name: u64,
    /// The fraction of its day, in thousand-millionths.
    pub fraction: u64,
    /// The duty mansion, 0 to 27, from jiao.
    pub mansion: u64,
}

/// A term of a year, as the almanac prints it.
#[derive(Clone, Copy, Debug, Default, PartialEq, Eq)]
pub struct Term {
    pub day: i64,
    pub minute: u64,
    /// The number of midnights visited to find it.
    pub count: u64,
}

/// A day and a minute of it, at the capital or at a place.
#[derive(Clone, Copy, Debug, Default, PartialEq, Eq)]
pub struct Moment {
    pub day: i64,
    pub minute: u64,
}

/// The values of a year in a term book.
#[derive(Clone, Copy, Debug, Default, PartialEq, Eq)]
pub struct Year {
    pub n: i64,
    pub day_name: u64,
    pub mansion: u64,
    /// In order, term 0 first.
    pub terms: [Moment; 24],
}

/// A year's part of one of two books.
#[derive(Clone, Copy, Debug, PartialEq, Eq)]
pub struct CorrectedYear<'a> {
    /// The book that it is a part of.
    pub which: Which,
    pub part: &'a [u8],
}

/// Whether a partner's book is ours. It prints as "ours" or "not ours at byte 5".
#[derive(Clone, Copy, Debug, PartialEq, Eq)]
pub enum Verdict {
    /// Each of its years is, byte for byte, what [`write_year`] writes.
    Ours,
    /// The first record that isn't ours starts at this byte: a head by its day name or mansion, a term by its
    /// day or minute.
    NotOurs { byte: usize },
}

impl fmt::Display for Verdict {
    fn fmt(&self, f: &mut fmt::Formatter<'_>) -> fmt::Result {
        match self {
            Verdict::Ours => f.write_str("ours"),
            Verdict::NotOurs { byte } => write!(f, "not ours at byte {byte}"),
        }
    }
}

/// The answer, unless the number is that of a refusal, which has no byte.
fn answered<T>(number: u64, answer: T) -> Result<T, Refusal> {
    match number {
        0 => Ok(answer),
        number => Err(Refusal { number, byte: None }),
    }
}

/// The mean winter solstice of the year `n`.
///
/// Refuses 1.
///
/// ```
/// let solstice = bhromilun::year(0)?;
/// assert_eq!((solstice.day_name, solstice.fraction, solstice.mansion), (7, 656_374_926, 6));
/// assert_eq!(bhromilun::year(2_001).unwrap_err().number, 1);
/// # Ok::<(), bhromilun::Refusal>(())
/// ```
pub fn year(n: i64) -> Result<Solstice, Refusal> {
    let mut solstice = Solstice::default();
    let Solstice { day_name, fraction, mansion } = &mut solstice;
    let number = plain::year(n, day_name, fraction, mansion);
    answered(number, solstice)
}

/// The equation of centre in units, at any anomaly in units; it is brought into the circle first.
///
/// Refuses nothing: no anomaly gives a tangent above the table's end, which would be 5.
///
/// ```
/// let degree = 3_600 * 60_000_000;
/// assert_eq!(bhromilun::equation(30 * degree)?, 225_257_319_587);
/// assert_eq!(bhromilun::equation(-30 * degree)?, -225_257_319_587);
/// # Ok::<(), bhromilun::Refusal>(())
/// ```
pub fn equation(anomaly: i64) -> Result<i64, Refusal> {
    let mut equation = 0;
    let number = plain::equation(anomaly, &mut equation);
    answered(number, equation)
}

/// The mean sun at the midnight of `day` (-4 to 370), in units within the circle.
///
/// Refuses 1, 2.
///
/// ```
/// assert_eq!(bhromilun::mean_place(0, 0)?, 73_157_720_187);
/// assert_eq!(bhromilun::mean_place(0, 371).unwrap_err().number, 2);
/// # Ok::<(), bhromilun::Refusal>(())
/// ```
pub fn mean_place(n: i64, day: i64) -> Result<u64, Refusal> {
    let mut place = 0;
    let number = plain::mean_place(n, day, &mut place);
    answered(number, place)
}

/// The true sun at the midnight of `day` (-4 to 370), in units within the circle.
///
/// Refuses 1, 2.
///
/// ```
/// let crossing = bhromilun::crossing(0, 6)?; // at 90 degrees
/// let mark = 90 * 3_600 * 60_000_000;
/// assert!(bhromilun::true_place(0, crossing.day)? <= mark);
/// assert!(mark < bhromilun::true_place(0, crossing.day + 1)?);
/// # Ok::<(), bhromilun::Refusal>(())
/// ```
pub fn true_place(n: i64, day: i64) -> Result<u64, Refusal> {
    let mut place = 0;
    let number = plain::true_place(n, day, &mut place);
    answered(number, place)
}

/// Term `k` (0 to 23) of the year `n` as the almanac prints it: half a minute or more rounds up, and what
/// would be minute 1,440 is minute 0 of the next day.
///
/// Refuses 1, 3.
///
/// ```
/// let term = bhromilun::term(0, 0)?;
/// assert_eq!((term.day, term.minute, term.count), (-1, 1_313, 5));
/// assert_eq!(bhromilun::term(0, 24).unwrap_err().number, 3);
/// # Ok::<(), bhromilun::Refusal>(())
/// ```
pub fn term(n: i64, k: u64) -> Result<Term, Refusal> {
    let mut term = Term::default();
    let number = plain::term(n, k, &mut term.day, &mut term.minute, &mut term.count);
    answered(number, term)
}

/// The sun's crossing of the mark of term `k` (0 to 23) in the year `n`: the day with the mark between its
/// midnight and the next, and the minute cut off. What is printed, [`term`], may be a minute later, and so on
/// the next day.
///
/// Refuses 1, 3.
///
/// ```
/// let (crossing, term) = (bhromilun::crossing(-255, 0)?, bhromilun::term(-255, 0)?);
/// assert_eq!((crossing.day, crossing.minute), (-1, 1_439)); // 11 seconds before midnight
/// assert_eq!((term.day, term.minute), (0, 0));
/// assert_eq!(bhromilun::crossing(0, 24).unwrap_err().number, 3);
/// # Ok::<(), bhromilun::Refusal>(())
/// ```
pub fn crossing(n: i64, k: u64) -> Result<Moment, Refusal> {
    let mut crossing = Moment::default();
    let number = plain::crossing(n, k, &mut crossing.day, &mut crossing.minute);
    answered(number, crossing)
}

/// The 24 terms of the year `n` as the almanac prints them, term 0 first: quicker than 24 calls of [`term`].
///
/// Refuses 1.
///
/// ```
/// let terms = bhromilun::terms(0)?;
/// assert_eq!(terms[0], bhromilun::term(0, 0)?);
/// assert_eq!((terms[23].day, terms[23].minute), (350, 654));
/// # Ok::<(), bhromilun::Refusal>(())
/// ```
pub fn terms(n: i64) -> Result<[Term; 24], Refusal> {
    let (mut days, mut minutes, mut counts) = ([0; 24], [0; 24], [0; 24]);
    let number = plain::terms(n, &mut days, &mut minutes, &mut counts);
    let mut terms = [Term::default(); 24];
    for (k, term) in terms.iter_mut().enumerate() {
        *term = Term { day: days[k], minute: minutes[k], count: counts[k] };
    }
    answered(number, terms)
}

/// The day and minute at a place `longitude` seconds of arc east of the capital (west is negative). The
/// day may come out as -5 or 371.
///
/// Refuses 2, 4.
///
/// ```
/// let there = bhromilun::local_time(10, 1_435, 13_284)?;
/// assert_eq!((there.day, there.minute), (11, 9));
/// assert_eq!(bhromilun::local_time(10, 1_435, 648_001).unwrap_err().number, 4);
/// # Ok::<(), bhromilun::Refusal>(())
/// ```
pub fn local_time(day: i64, minute: u64, longitude: i64) -> Result<Moment, Refusal> {
    let mut there = Moment::default();
    let number = plain::local_time(day, minute, longitude, &mut there.day, &mut there.minute);
    answered(number, there)
}

/// Works out the year `n`, fills the first 149 bytes with its part of a term book, and hands these out.
/// Later bytes stay, and on a refusal all do.
///
/// Refuses 1, 6.
///
/// ```
/// let mut buffer = [0; 150];
/// let part = bhromilun::write_year(0, &mut buffer)?;
/// assert_eq!(part.len(), 149);
/// assert_eq!(part[..5], [0x01, 0x07, 0xd0, 7, 6]);
/// assert_eq!(bhromilun::write_year(0, &mut buffer[..148]).unwrap_err().number, 6);
/// # Ok::<(), bhromilun::Refusal>(())
/// ```
pub fn write_year(n: i64, buffer: &mut [u8]) -> Result<&[u8], Refusal> {
    match plain::write_year(n, buffer) {
        0 => Ok(&buffer[..YEAR_BYTES]),
        number => Err(Refusal { number, byte: None }),
    }
}

/// Checks a whole book; an empty one is sound.
///
/// Refuses 7, 8, 9, 10, each with its byte.
///
/// ```
/// let mut book = [0; 149];
/// bhromilun::write_year(0, &mut book)?;
/// assert_eq!(bhromilun::check_book(&book), Ok(()));
/// let refusal = bhromilun::check_book(&book[..148]).unwrap_err();
/// assert_eq!((refusal.number, refusal.byte), (7, Some(143)));
/// # Ok::<(), bhromilun::Refusal>(())
/// ```
pub fn check_book(bytes: &[u8]) -> Result<(), Refusal> {
    let mut byte = 0;
    match plain::check_book(bytes, &mut byte) {
        0 => Ok(()),
        number => Err(Refusal { number, byte: Some(byte as usize) }),
    }
}

/// The year's part of a book.
///
/// Refuses 1; then 7, 8, 9, 10 for the whole book, each with its byte; then 12.
///
/// ```
/// let mut book = [0; 2 * 149];
/// bhromilun::write_year(0, &mut book)?;
/// bhromilun::write_year(1, &mut book[149..])?;
/// assert_eq!(bhromilun::seek_year(&book, 1)?, &book[149..]);
/// assert_eq!(bhromilun::seek_year(&book, 2).unwrap_err().number, 12);
/// # Ok::<(), bhromilun::Refusal>(())
/// ```
pub fn seek_year(bytes: &[u8], n: i64) -> Result<&[u8], Refusal> {
    let (mut start, mut end, mut byte) = (0, 0, 0);
    match plain::seek_year(bytes, n, &mut start, &mut end, &mut byte) {
        0 => Ok(&bytes[start as usize..end as usize]),
        number @ 7..=10 => Err(Refusal { number, byte: Some(byte as usize) }),
        number => Err(Refusal { number, byte: None }),
    }
}

/// The year's part of the corrections if they have it, else of the main book, and which of the two that is.
/// Both are checked whole, also where the corrections have the year. They may be the same bytes, or overlap.
///
/// Refuses 1; then 7, 8, 9, 10 for the corrections, then for the main book, each with its byte and the book;
/// then 12 if neither has the year.
///
/// ```
/// use bhromilun::Which;
///
/// let mut book = [0; 2 * 149];
/// bhromilun::write_year(0, &mut book)?;
/// bhromilun::write_year(1, &mut book[149..])?;
/// let mut sheet = [0; 149];
/// sheet.copy_from_slice(&book[149..]);
/// sheet[10] ^= 1; // the minute of term 0, corrected by hand
///
/// let year = bhromilun::corrected_year(&sheet, &book, 1)?;
/// assert_eq!((year.which, year.part), (Which::Corrections, &sheet[..]));
/// let year = bhromilun::corrected_year(&sheet, &book, 0)?;
/// assert_eq!((year.which, year.part), (Which::Main, &book[..149]));
///
/// let refused = bhromilun::corrected_year(&sheet, &book[..148], 1).unwrap_err();
/// assert_eq!((refused.refusal.number, refused.refusal.byte), (7, Some(143)));
/// assert_eq!(refused.which, Some(Which::Main));
/// # Ok::<(), Box<dyn std::error::Error>>(())
/// ```
pub fn corrected_year<'a>(
    corrections: &'a [u8],
    main: &'a [u8],
    n: i64,
) -> Result<CorrectedYear<'a>, CorrectedRefusal> {
    let (mut which, mut start, mut end, mut byte) = (0, 0, 0, 0);
    let number =
        plain::corrected_year(corrections, main, n, &mut which, &mut start, &mut end, &mut byte);
    let (which, book) = match which {
        0 => (Which::Corrections, corrections),
        _ => (Which::Main, main),
    };
    let refused = |byte, which| CorrectedRefusal { refusal: Refusal { number, byte }, which };
    match number {
        0 => Ok(CorrectedYear { which, part: &book[start as usize..end as usize] }),
        7..=10 => Err(refused(Some(byte as usize), Some(which))),
        _ => Err(refused(None, None)),
    }
}

/// Whether each year of a partner's book is ours: its day name and mansion, and each term's day and minute.
/// The book is checked whole before anything is compared; an empty one is ours. [`check_book`], [`seek_year`]
/// and [`read_year`] go on accepting a book that isn't.
///
/// Refuses 7, 8, 9, 10, each with its byte.
///
/// ```
/// use bhromilun::Verdict;
///
/// let mut book = [0; 149];
/// bhromilun::write_year(0, &mut book)?;
/// assert_eq!(bhromilun::verify_book(&book)?, Verdict::Ours);
/// book[10] += 1; // term 0 a minute later
/// assert_eq!(bhromilun::verify_book(&book)?, Verdict::NotOurs { byte: 5 });
/// assert_eq!(bhromilun::check_book(&book), Ok(()));
/// let refusal = bhromilun::verify_book(&book[..148]).unwrap_err();
/// assert_eq!((refusal.number, refusal.byte), (7, Some(143)));
/// # Ok::<(), bhromilun::Refusal>(())
/// ```
pub fn verify_book(bytes: &[u8]) -> Result<Verdict, Refusal> {
    let mut byte = 0;
    match plain::verify_book(bytes, &mut byte) {
        0 => Ok(Verdict::Ours),
        plain::NOT_OURS => Ok(Verdict::NotOurs { byte: byte as usize }),
        number => Err(Refusal { number, byte: Some(byte as usize) }),
    }
}

/// The year at the start of the bytes, and the bytes after it, which are not looked at. Read one by one,
/// years are not held to rise: that is [`check_book`]'s matter.
///
/// Refuses 7, 8, 9, 10, each with its byte; no bytes at all are refused 10 at byte 0.
///
/// ```
/// let mut book = [0; 2 * 149];
/// bhromilun::write_year(0, &mut book)?;
/// bhromilun::write_year(1, &mut book[149..])?;
/// let mut rest = &book[..];
/// while !rest.is_empty() {
///     let (year, after) = bhromilun::read_year(rest)?;
///     println!("year {}: term 0 on day {}", year.n, year.terms[0].day);
///     rest = after;
/// }
/// let refusal = bhromilun::read_year(rest).unwrap_err();
/// assert_eq!((refusal.number, refusal.byte), (10, Some(0)));
/// # Ok::<(), bhromilun::Refusal>(())
/// ```
pub fn read_year(bytes: &[u8]) -> Result<(Year, &[u8]), Refusal> {
    let mut year = Year::default();
    let Year { n, day_name, mansion, .. } = &mut year;
    let (mut days, mut minutes) = ([0; 24], [0; 24]);
    let (mut end, mut byte) = (0, 0);
    let number =
        plain::read_year(bytes, n, day_name, mansion, &mut days, &mut minutes, &mut end, &mut byte);
    if number != 0 {
        return Err(Refusal { number, byte: Some(byte as usize) });
    }
    for (k, term) in year.terms.iter_mut().enumerate() {
        *term = Moment { day: days[k], minute: minutes[k] };
    }
    Ok((year, &bytes[end as usize..]))
}

/// Fills the first 149 bytes with the year of these values, and hands them out. Later bytes stay, and on a
/// refusal all do.
///
/// Refuses 1; then 6; then 9 for a day name above 59, a mansion above 27, a day outside -4 to 370 or a
/// minute above 1,439.
///
/// ```
/// let mut book = [0; 149];
/// bhromilun::write_year(0, &mut book)?;
/// let (mut year, _) = bhromilun::read_year(&book)?;
/// let mut again = [0; 149];
/// assert_eq!(bhromilun::write_year_from(&year, &mut again)?, book);
/// year.terms[23].minute = 1_440;
/// assert_eq!(bhromilun::write_year_from(&year, &mut again).unwrap_err().number, 9);
/// # Ok::<(), bhromilun::Refusal>(())
/// ```
pub fn write_year_from<'a>(year: &Year, buffer: &'a mut [u8]) -> Result<&'a [u8], Refusal> {
    let days = year.terms.map(|term| term.day);
    let minutes = year.terms.map(|term| term.minute);
    match plain::write_year_from(year.n, year.day_name, year.mansion, &days, &minutes, buffer) {
        0 => Ok(&buffer[..YEAR_BYTES]),
        number => Err(Refusal { number, byte: None }),
    }
}
