//! Compares the library with the reckoning, answer by answer and refusal by refusal. A case is one
//! call: its number, all that it stores, and what it must leave as it was.

mod books;
mod corrections;
mod odd;
mod partners;
mod reckoned;
mod results;
mod values;

use outside::Refusal;
use std::fmt::Debug;

/// What everything that is lent holds before a call.
const BEFORE: u64 = 0x5a5a_5a5a_5a5a_5a5a;
const BEFORE_SIGNED: i64 = BEFORE as i64;
const BEFORE_BYTE: u8 = 0x5a;

fn main() {
    let mut tally = Tally::default();
    reckoned::years(&mut tally);
    reckoned::places(&mut tally);
    reckoned::equations(&mut tally);
    reckoned::terms(&mut tally);
    reckoned::year_calls(&mut tally);
    reckoned::local_times(&mut tally);
    let shelf = books::written_years(&mut tally);
    books::whole_book(&mut tally, &shelf);
    books::cut_books(&mut tally, &shelf);
    books::damaged_books(&mut tally, &shelf);
    corrections::odd_pairs(&mut tally, &shelf);
    corrections::odd_fields(&mut tally, &shelf);
    corrections::cut_pairs(&mut tally, &shelf);
    corrections::whole_books(&mut tally, &shelf);
    corrections::damaged_pairs(&mut tally, &shelf);
    let ours = partners::Ours::of(&shelf);
    partners::odd_partners(&mut tally, &shelf, &ours);
    partners::partners_years(&mut tally, &shelf, &ours);
    partners::whole_partners(&mut tally, &shelf, &ours);
    partners::damaged_partners(&mut tally, &shelf, &ours);
    values::read_years(&mut tally, &shelf);
    values::odd_years_read(&mut tally, &shelf);
    values::damaged_years_read(&mut tally, &shelf);
    values::odd_years_written(&mut tally);
    values::years_written(&mut tally);
    results::results(&mut tally, &shelf);
    println!("{} cases, {} differences", tally.cases, tally.differences);
    if tally.differences != 0 {
        std::process::exit(1);
    }
}

#[derive(Default)]
pub struct Tally {
    cases: u64,
    differences: u64,
    cases_before: u64,
}

impl Tally {
    fn case<T: PartialEq + Debug>(&mut self, name: impl FnOnce() -> String, library: T, ours: T) {
        self.cases += 1;
        if library != ours {
            self.differences += 1;
            if self.differences <= 10 {
                println!("{}: library {library:?}, reckoning {ours:?}", name());
            }
        }
    }

    fn end_of_part(&mut self, name: &str) {
        println!("{name}: {} cases", self.cases - self.cases_before);
        self.cases_before = self.cases;
    }
}

/// What the place for the byte at fault holds after a refusal.
fn byte_stored(refusal: Refusal) -> u64 {
    refusal.byte.map_or(BEFORE, |byte| byte as u64)
}

/// An array of 24 that is lent, between two numbers that are not.
#[derive(Clone, Copy, Debug, PartialEq, Eq)]
#[repr(C)]
struct Column<T> {
    first: T,
    seats: [T; 24],
    last: T,
}

impl<T: Copy> Column<T> {
    const fn of(beside: T, seats: [T; 24]) -> Column<T> {
        Column { first: beside, seats, last: beside }
    }
}

const DAYS_BEFORE: Column<i64> = Column::of(BEFORE_SIGNED, [BEFORE_SIGNED; 24]);
const COLUMN_BEFORE: Column<u64> = Column::of(BEFORE, [BEFORE; 24]);

/// A buffer that is lent, between eight bytes to each side that are not.
#[derive(Debug, PartialEq, Eq)]
struct Buffer(Vec<u8>);

impl Buffer {
    fn of(length: usize) -> Buffer {
        Buffer(vec![BEFORE_BYTE; 8 + length + 8])
    }

    fn lent(&mut self) -> &mut [u8] {
        let end = self.0.len() - 8;
        &mut self.0[8..end]
    }
}
