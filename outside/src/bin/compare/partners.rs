//! Request K4: whether a partner's book is ours. Each book is given to the plain call and to the safe one;
//! our years are those of the reckoning, as they stand in the book of all years.

use crate::books::{damage, odd_values, put_together, records, year_in, Record};
use crate::corrections::odd_books;
use crate::odd::{Sequence, YEARS};
use crate::{byte_stored, Tally, BEFORE};
use bhromilun::plain;
use outside::reckoning::book::{self, YEAR_BYTES};
use outside::reckoning::crossing;
use outside::{Verdict, Year};

/// The years of the book of all years, by N + 2,000.
pub struct Ours(Vec<Year>);

impl Ours {
    pub fn of(shelf: &[u8]) -> Ours {
        let years = YEARS.map(|n| book::read_year(year_in(shelf, n)).unwrap().0);
        Ours(years.collect())
    }

    fn year(&self, n: i64) -> Year {
        self.0[(n + 2_000) as usize]
    }
}

fn verify(tally: &mut Tally, ours: &Ours, bytes: &[u8], name: impl Fn() -> String) {
    let kept = bytes.to_vec();
    let our_verdict = book::verify_with(&kept, |n| ours.year(n));

    let mut byte = BEFORE;
    let number = plain::verify_book(bytes, &mut byte);
    let (our_number, our_byte) = match our_verdict {
        Ok(Verdict::Ours) => (0, BEFORE),
        Ok(Verdict::NotOurs { byte }) => (100, byte as u64),
        Err(refusal) => (refusal.number, byte_stored(refusal)),
    };
    let name_of = |call| format!("{call}, verifying {}", name());
    let answer = (number, byte, bytes == kept);
    tally.case(|| name_of("the plain call"), answer, (our_number, our_byte, true));

    let verdict = bhromilun::verify_book(bytes);
    let our_verdict = match our_verdict {
        Ok(Verdict::Ours) => Ok(bhromilun::Verdict::Ours),
        Ok(Verdict::NotOurs { byte }) => Ok(bhromilun::Verdict::NotOurs { byte }),
        Err(refusal) => Err(bhromilun::Refusal { number: refusal.number, byte: refusal.byte }),
    };
    let answer = (verdict, bytes == kept);
    tally.case(|| name_of("the safe call"), answer, (our_verdict, true));
}

/// A year or two of ours, each value of each record one more or one less, and each odd value.
pub fn odd_partners(tally: &mut Tally, shelf: &[u8], ours: &Ours) {
    for bytes in odd_books(shelf) {
        verify(tally, ours, &bytes, || format!("{bytes:02x?}"));
    }
    let mut bytes = Vec::new();
    for years in [&[-2_000][..], &[-676], &[2_000], &[-1, 0], &[1_999, 2_000]] {
        let list: Vec<Record> = years.iter().flat_map(|&n| records(year_in(shelf, n))).collect();
        for record in 0..list.len() {
            for field in list[record].fields() {
                let value = list[record].get(field);
                let near = [value.wrapping_sub(1), value, value.wrapping_add(1)];
                for value in near.into_iter().chain(odd_values(field)) {
                    let mut list = list.clone();
                    list[record].set(field, value);
                    put_together(&list, &mut bytes);
                    verify(tally, ours, &bytes, || format!("{bytes:02x?}"));
                }
            }
        }
    }
    tally.end_of_part("partners' books with odd values");
}

/// Every year by itself: ours, each of its values one more, under the next year's N, and with each minute
/// that rounding moves cut off.
pub fn partners_years(tally: &mut Tally, shelf: &[u8], ours: &Ours) {
    let mut bytes = Vec::new();
    for n in YEARS {
        let list: Vec<Record> = records(year_in(shelf, n)).collect();
        put_together(&list, &mut bytes);
        verify(tally, ours, &bytes, || format!("the year {n}"));
        for record in 0..list.len() {
            for field in &list[record].fields()[1..] {
                let mut list = list.clone();
                let value = list[record].get(*field);
                list[record].set(*field, value.wrapping_add(1));
                put_together(&list, &mut bytes);
                verify(tally, ours, &bytes, || format!("the year {n}, {bytes:02x?}"));
            }
        }
        for k in 0..24 {
            let mut theirs = ours.year(n);
            let cut_off = crossing(n, k as u64).unwrap();
            if theirs.terms[k] != cut_off {
                theirs.terms[k] = cut_off;
                let mut bytes = [0; YEAR_BYTES];
                book::write_year_from(&theirs, &mut bytes).unwrap();
                verify(tally, ours, &bytes, || format!("the year {n}, term {k} cut off"));
            }
        }
    }
    tally.end_of_part("partners' years");
}

/// The book of all years, whole, without its last byte, and with one record of some years changed; and a
/// book of three years cut after each byte.
pub fn whole_partners(tally: &mut Tally, shelf: &[u8], ours: &Ours) {
    verify(tally, ours, shelf, || "the book of all years".to_string());
    verify(tally, ours, &shelf[..shelf.len() - 1], || "it without its last byte".to_string());
    let mut book = shelf.to_vec();
    for start in (0..book.len()).step_by(200 * YEAR_BYTES) {
        for byte in [start + 3, start + 4, start + 8, start + 148] {
            book[byte] ^= 1;
            verify(tally, ours, &book, || format!("the book of all years, byte {byte} changed"));
            book[byte] ^= 1;
        }
    }
    for length in 0..=3 * YEAR_BYTES {
        verify(tally, ours, &shelf[..length], || format!("a book cut after {length} bytes"));
    }
    tally.end_of_part("partners' books of all years, and cut");
}

/// Books of none to three years, mostly in order, with none to three changes; some of the changed stay sound.
pub fn damaged_partners(tally: &mut Tally, shelf: &[u8], ours: &Ours) {
    let mut sequence = Sequence(1724);
    let mut list = Vec::new();
    let mut bytes = Vec::new();
    for number in 0..200_000 {
        let mut years = [0; 3].map(|_| sequence.year());
        if sequence.below(8) != 0 {
            years.sort_unstable();
        }
        list.clear();
        for &n in &years[..sequence.below(4)] {
            list.extend(records(year_in(shelf, n)));
        }
        damage(&mut sequence, &mut list, &mut bytes);
        verify(tally, ours, &bytes, || format!("damaged book {number}, {bytes:02x?}"));
    }
    tally.end_of_part("partners' damaged books");
}
