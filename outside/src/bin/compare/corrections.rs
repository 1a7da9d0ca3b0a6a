//! Request K1: a year sought in two books, the corrections and the main book. Each pair of books is
//! given to the plain call and to the safe one.

use crate::books::{damage, odd_values, put_together, records, year_in, Record};
use crate::odd::{years_outside, Sequence, YEARS};
use crate::{byte_stored, Tally, BEFORE};
use bhromilun::plain;
use outside::reckoning::book::{self, YEAR_BYTES};
use outside::{CorrectedRefusal, Which};

/// All that the plain call may store. No two hold the same before, so that none passes for another.
#[derive(Clone, Copy, Debug, PartialEq, Eq)]
struct Lent {
    which: u64,
    start: u64,
    end: u64,
    byte: u64,
}

const UNSTORED: Lent = Lent { which: BEFORE + 1, start: BEFORE + 2, end: BEFORE + 3, byte: BEFORE };

type Start = Result<(Which, usize), CorrectedRefusal>;

/// The number of the answer, and what is stored with it.
fn stored(answer: Start) -> (u64, Lent) {
    let number_of = |which| match which {
        Which::Corrections => 0,
        Which::Main => 1,
    };
    match answer {
        Ok((which, start)) => {
            let end = (start + YEAR_BYTES) as u64;
            (0, Lent { which: number_of(which), start: start as u64, end, ..UNSTORED })
        }
        Err(CorrectedRefusal { refusal, which }) => {
            let which = which.map_or(UNSTORED.which, number_of);
            (refusal.number, Lent { which, byte: byte_stored(refusal), ..UNSTORED })
        }
    }
}

type Answer<'a> = Result<bhromilun::CorrectedYear<'a>, bhromilun::CorrectedRefusal>;

/// The answer as the safe call gives it.
fn handed_out<'a>(answer: Start, corrections: &'a [u8], main: &'a [u8]) -> Answer<'a> {
    let named = |which| match which {
        Which::Corrections => bhromilun::Which::Corrections,
        Which::Main => bhromilun::Which::Main,
    };
    match answer {
        Ok((which, start)) => {
            let book = match which {
                Which::Corrections => corrections,
                Which::Main => main,
            };
            let part = &book[start..start + YEAR_BYTES];
            Ok(bhromilun::CorrectedYear { which: named(which), part })
        }
        Err(CorrectedRefusal { refusal, which }) => {
            let refusal = bhromilun::Refusal { number: refusal.number, byte: refusal.byte };
            Err(bhromilun::CorrectedRefusal { refusal, which: which.map(named) })
        }
    }
}

/// Where the part begins that is handed out: the same bytes at another place are not that part.
fn place(answer: &Answer) -> Option<*const u8> {
    answer.ok().map(|year| year.part.as_ptr())
}

fn seek(tally: &mut Tally, corrections: &[u8], main: &[u8], n: i64, name: impl Fn() -> String) {
    let kept = (corrections.to_vec(), main.to_vec());
    let same = || corrections == kept.0 && main == kept.1;
    let ours = book::corrected_start(&kept.0, &kept.1, n);

    let mut lent = UNSTORED;
    let Lent { which, start, end, byte } = &mut lent;
    let number = plain::corrected_year(corrections, main, n, which, start, end, byte);
    let (our_number, our_lent) = stored(ours);
    let name_of = |call| format!("{call}, seeking {n} in {}", name());
    tally.case(|| name_of("the plain call"), (number, lent, same()), (our_number, our_lent, true));

    let answer = bhromilun::corrected_year(corrections, main, n);
    let our_answer = handed_out(ours, corrections, main);
    tally.case(
        || name_of("the safe call"),
        (place(&answer), answer, same()),
        (place(&our_answer), our_answer, true),
    );
}

fn records_of(shelf: &[u8], years: &[i64]) -> Vec<Record> {
    years.iter().flat_map(|&n| records(year_in(shelf, n))).collect()
}

fn book_of(records: &[Record]) -> Vec<u8> {
    let mut bytes = Vec::new();
    put_together(records, &mut bytes);
    bytes
}

/// Books of each kind: empty, sound, and with each fault in the first year and in the last.
pub fn odd_books(shelf: &[u8]) -> Vec<Vec<u8>> {
    let mut books = vec![Vec::new()];
    let sound = [&[-2_000][..], &[0], &[2_000], &[-2_000, 2_000], &[-1, 0], &[-1, 0, 1]];
    let falling = [&[0, 0][..], &[0, -1], &[-1, 1, 0]];
    for years in sound.iter().chain(&falling) {
        books.push(book_of(&records_of(shelf, years)));
    }

    let list = records_of(shelf, &[-1, 0]);
    let whole = book_of(&list);
    for length in [1, 4, 5, 6, 10, 11, 148, 150, 154, 297] {
        books.push(whole[..length].to_vec());
    }
    for kind in [0, 1, 2, 3, 255] {
        let mut longer = whole.clone();
        longer.push(kind);
        books.push(longer);
    }
    // The heads of both years, their first terms and their last.
    for record in [0, 1, 24, 25, 26, 49] {
        let mut changed = |change: &dyn Fn(&mut Vec<Record>)| {
            let mut list = list.clone();
            change(&mut list);
            books.push(book_of(&list));
        };
        for field in list[record].fields() {
            let (_, _, limit) = field;
            changed(&|list| list[record].set(field, limit + 1));
        }
        let (kind, other_kind) = (list[record].fields()[0], if record % 25 == 0 { 2 } else { 1 });
        changed(&|list| list[record].set(kind, other_kind));
        changed(&|list| list.insert(record, list[record]));
        changed(&|list| {
            list.remove(record);
        });
    }
    books
}

/// Every two of the odd books, and each beside itself; N at its limits and past them, and such as the
/// one book has, the other, both or neither.
pub fn odd_pairs(tally: &mut Tally, shelf: &[u8]) {
    let books = odd_books(shelf);
    // Equal books that lie at different places.
    let copies = books.clone();
    let sought = [i64::MIN, -2_001, -2_000, -1, 0, 1, 7, 2_000, 2_001, i64::MAX];
    for corrections in &books {
        for main in copies.iter().chain([corrections]) {
            for n in sought {
                seek(tally, corrections, main, n, || format!("{corrections:02x?}, {main:02x?}"));
            }
        }
    }
    tally.end_of_part("pairs of odd books");
}

/// Each field of each record with each of its odd values: in the corrections, the main book, or both.
pub fn odd_fields(tally: &mut Tally, shelf: &[u8]) {
    let sound = book_of(&records_of(shelf, &[0, 1]));
    let list = records_of(shelf, &[-1, 0]);
    let mut odd_before = sound.clone();
    for record in 0..list.len() {
        for field in list[record].fields() {
            for value in odd_values(field) {
                let mut list = list.clone();
                list[record].set(field, value);
                let odd = book_of(&list);
                for (corrections, main) in [(&odd, &sound), (&sound, &odd), (&odd, &odd_before)] {
                    for n in [-1, 0, 1, 7, 2_000, 2_001] {
                        let name = || format!("{corrections:02x?}, {main:02x?}");
                        seek(tally, corrections, main, n, name);
                    }
                }
                odd_before = odd;
            }
        }
    }
    tally.end_of_part("pairs of books with odd fields");
}

/// A book of three years cut after each byte, beside its rest, beside the whole and beside itself: the
/// two lie next to each other, one over the other, or are the same bytes.
pub fn cut_pairs(tally: &mut Tally, shelf: &[u8]) {
    let whole = &shelf[..3 * YEAR_BYTES];
    let later = &whole[YEAR_BYTES..];
    for length in 0..=whole.len() {
        let (cut, rest) = whole.split_at(length);
        let pairs =
            [(cut, rest), (rest, cut), (cut, whole), (whole, cut), (cut, later), (cut, cut)];
        for (pair, (corrections, main)) in pairs.into_iter().enumerate() {
            for n in [-2_001, -2_000, -1_999, -1_998, 0] {
                let name = || format!("pair {pair} of a book cut after {length} bytes");
                seek(tally, corrections, main, n, name);
            }
        }
    }
    tally.end_of_part("pairs of books cut after each byte");
}

/// A sheet of 20 years beside the book of all years, whole and without its last byte, and each in the
/// other's place.
pub fn whole_books(tally: &mut Tally, shelf: &[u8]) {
    let corrected: Vec<i64> = YEARS.step_by(200).take(20).collect();
    let sheet = &book_of(&records_of(shelf, &corrected))[..];
    let cut = &shelf[..shelf.len() - 1];
    let pairs = [(sheet, shelf), (shelf, sheet), (sheet, cut), (cut, sheet)];
    for (corrections, main) in pairs {
        for n in YEARS.step_by(40).chain([-1_999, 1_999]).chain(years_outside()) {
            let name = || format!("books of {} and {} bytes", corrections.len(), main.len());
            seek(tally, corrections, main, n, name);
        }
    }
    tally.end_of_part("a sheet of corrections beside the book of all years");
}

/// Pairs of books of none to four years, mostly in order, each changed or not; some of the changed stay
/// sound.
pub fn damaged_pairs(tally: &mut Tally, shelf: &[u8]) {
    let mut sequence = Sequence(1683);
    let mut list = Vec::new();
    let mut books = [Vec::new(), Vec::new()];
    for number in 0..100_000 {
        let mut years = [0; 4].map(|_| sequence.year());
        if sequence.below(8) != 0 {
            years.sort_unstable();
        }
        for bytes in &mut books {
            // A year may so be in one of the books, in both or in neither.
            list.clear();
            for &n in &years {
                if sequence.below(2) == 0 {
                    list.extend(records(year_in(shelf, n)));
                }
            }
            put_together(&list, bytes);
            if sequence.below(2) == 0 {
                damage(&mut sequence, &mut list, bytes);
            }
        }
        let sought = match sequence.below(8) {
            0 => sequence.one_of(&[i64::MIN, -2_001, 2_001, i64::MAX]),
            1 => sequence.year(),
            _ => sequence.one_of(&years),
        };
        let [corrections, main] = &books;
        let name = || format!("damaged pair {number}, {corrections:02x?}, {main:02x?}");
        seek(tally, corrections, main, sought, name);
    }
    tally.end_of_part("damaged pairs of books");
}
