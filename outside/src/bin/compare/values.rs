//! The two calls between bytes and values: a year read into numbers and arrays of 24, and written from
//! them. What the one has made is given to the other, and must come back.

use crate::books::{damage_bytes, damage_records, odd_values, put_together, records};
use crate::odd::{above, days_outside, years_outside, Sequence, YEARS};
use crate::{
    byte_stored, Buffer, Column, Tally, BEFORE, BEFORE_SIGNED, COLUMN_BEFORE, DAYS_BEFORE,
};
use bhromilun::plain;
use outside::reckoning::book::{self, YEAR_BYTES};
use outside::{Moment, Year};

/// All that a year is read into.
#[derive(Clone, Copy, Debug, PartialEq, Eq)]
struct Lent {
    n: i64,
    day_name: u64,
    mansion: u64,
    days: Column<i64>,
    minutes: Column<u64>,
    end: u64,
    byte: u64,
}

const UNREAD: Lent = Lent {
    n: BEFORE_SIGNED,
    day_name: BEFORE,
    mansion: BEFORE,
    days: DAYS_BEFORE,
    minutes: COLUMN_BEFORE,
    end: BEFORE,
    byte: BEFORE,
};

impl Lent {
    fn holding(year: &Year, end: usize) -> Lent {
        let Year { n, day_name, mansion, terms } = *year;
        let days = Column::of(BEFORE_SIGNED, terms.map(|term| term.day));
        let minutes = Column::of(BEFORE, terms.map(|term| term.minute));
        Lent { n, day_name, mansion, days, minutes, end: end as u64, ..UNREAD }
    }

    fn year(&self) -> Year {
        let Lent { n, day_name, mansion, .. } = *self;
        let mut terms = [Moment::default(); 24];
        for (k, term) in terms.iter_mut().enumerate() {
            *term = Moment { day: self.days.seats[k], minute: self.minutes.seats[k] };
        }
        Year { n, day_name, mansion, terms }
    }
}

fn library_reads(bytes: &[u8]) -> (u64, Lent) {
    let mut lent = UNREAD;
    let Lent { n, day_name, mansion, days, minutes, end, byte } = &mut lent;
    let (days, minutes) = (&mut days.seats, &mut minutes.seats);
    let number = plain::read_year(bytes, n, day_name, mansion, days, minutes, end, byte);
    (number, lent)
}

/// The number, the buffer afterwards, and whether the two arrays are as they were. The compiler takes
/// that for granted of what is lent by `&`, so they are read again behind its back.
fn library_writes(year: &Year, length: usize) -> (u64, Buffer, bool) {
    let mut buffer = Buffer::of(length);
    let Lent { n, day_name, mansion, days, minutes, .. } = Lent::holding(year, 0);
    let lent = buffer.lent();
    let number = plain::write_year_from(n, day_name, mansion, &days.seats, &minutes.seats, lent);
    let (days, minutes) =
        unsafe { (std::ptr::read_volatile(&days), std::ptr::read_volatile(&minutes)) };
    let same = (days, minutes) == {
        let before = Lent::holding(year, 0);
        (before.days, before.minutes)
    };
    (number, buffer, same)
}

/// Reads a year; one that is sound is also written again, and must come out as the same bytes.
fn read(tally: &mut Tally, bytes: &[u8], name: impl Fn() -> String) {
    let kept = bytes.to_vec();
    let (number, lent) = library_reads(bytes);
    let ours = match book::read_year(&kept) {
        Ok((year, end)) => (0, Lent::holding(&year, end), true),
        Err(refusal) => (refusal.number, Lent { byte: byte_stored(refusal), ..UNREAD }, true),
    };
    tally.case(|| format!("reading {}", name()), (number, lent, bytes == kept), ours);
    if number == 0 {
        let end = lent.end as usize;
        let mut again = Buffer::of(end);
        again.lent().copy_from_slice(&kept[..end]);
        let name = || format!("writing again {}", name());
        tally.case(name, library_writes(&lent.year(), end), (0, again, true));
    }
}

/// Writes a year; one that was accepted is also read, and must come out as the same values.
fn write_from(tally: &mut Tally, year: &Year, length: usize) {
    let mut theirs = library_writes(year, length);
    let mut buffer = Buffer::of(length);
    let number = book::write_year_from(year, buffer.lent()).map_or_else(|r| r.number, |_| 0);
    let name = || format!("{year:?} written to {length} bytes");
    tally.case(name, &theirs, &(number, buffer, true));
    if theirs.0 == 0 {
        let name = || format!("reading again {year:?}");
        let read = library_reads(theirs.1.lent());
        tally.case(name, read, (0, Lent::holding(year, YEAR_BYTES)));
    }
}

/// Every year of the book, alone, before what follows it, and cut off.
pub fn read_years(tally: &mut Tally, shelf: &[u8]) {
    for n in YEARS {
        let start = (n + 2_000) as usize * YEAR_BYTES;
        let end = start + YEAR_BYTES;
        read(tally, &shelf[start..end], || format!("the year {n}"));
        read(tally, &shelf[start..], || format!("the book from the year {n} on"));
        let length = (n + 2_000) as usize % YEAR_BYTES;
        read(tally, &shelf[start..start + length], || format!("{length} bytes of the year {n}"));
    }
    tally.end_of_part("years read, and written again");
}

/// Each field of each record with each of its odd values, and the bytes then cut after each byte; the
/// last are followed by a byte of no kind.
pub fn odd_years_read(tally: &mut Tally, shelf: &[u8]) {
    let list: Vec<_> = records(&shelf[..YEAR_BYTES]).collect();
    let mut bytes = Vec::new();
    for place in 0..list.len() {
        for field in list[place].fields() {
            for value in odd_values(field) {
                let mut list = list.clone();
                list[place].set(field, value);
                put_together(&list, &mut bytes);
                bytes.push(0);
                for length in 0..=bytes.len() {
                    let cut = &bytes[..length];
                    read(tally, cut, || format!("{length} bytes, record {place}, {cut:02x?}"));
                }
            }
        }
    }
    tally.end_of_part("years with odd fields, cut after each byte, read");
}

/// Single years with one to three changes among their records or bytes, some with bytes after them.
pub fn damaged_years_read(tally: &mut Tally, shelf: &[u8]) {
    let mut sequence = Sequence(1723);
    let mut list = Vec::new();
    let mut bytes = Vec::new();
    for number in 0..200_000 {
        let start = sequence.below(4_001) * YEAR_BYTES;
        list.clear();
        list.extend(records(&shelf[start..start + YEAR_BYTES]));
        let among_records = sequence.below(3);
        for _ in 0..among_records {
            damage_records(&mut sequence, &mut list);
        }
        put_together(&list, &mut bytes);
        if sequence.below(4) == 0 {
            bytes.extend_from_slice(&shelf[start..start + 1 + sequence.below(YEAR_BYTES)]);
        }
        let among_bytes =
            if among_records == 0 { 1 + sequence.below(2) } else { sequence.below(2) };
        for _ in 0..among_bytes {
            damage_bytes(&mut sequence, &mut bytes);
        }
        read(tally, &bytes, || format!("damaged year {number}, {bytes:02x?}"));
    }
    tally.end_of_part("damaged years read");
}

/// The odd values one by one, in each seat and in all 24 at once, with each N and each buffer that is
/// refused before them or not.
pub fn odd_years_written(tally: &mut Tally) {
    let mut days = vec![-4, -3, 369, 370];
    days.extend(days_outside());
    let mut years = vec![-2_000, -1_999, 0, 1_999, 2_000];
    years.extend(years_outside());
    // No two terms are alike, so that none can stand in another's seat unseen.
    let mut terms = [Moment::default(); 24];
    for (k, term) in terms.iter_mut().enumerate() {
        *term = Moment { day: 15 * k as i64, minute: 61 * k as u64 };
    }
    for &n in &years {
        let year = Year { n, day_name: 58, mansion: 26, terms };
        for length in [0, YEAR_BYTES - 1, YEAR_BYTES, YEAR_BYTES + 1] {
            write_from(tally, &year, length);
            for day_name in above(59) {
                write_from(tally, &Year { day_name, ..year }, length);
            }
            for mansion in above(27) {
                write_from(tally, &Year { mansion, ..year }, length);
            }
            for seats in (0..24).map(|seat| seat..seat + 1).chain(std::iter::once(0..24)) {
                for &day in &days {
                    let mut odd = year;
                    odd.terms[seats.clone()].iter_mut().for_each(|term| term.day = day);
                    write_from(tally, &odd, length);
                }
                for minute in above(1_439) {
                    let mut odd = year;
                    odd.terms[seats.clone()].iter_mut().for_each(|term| term.minute = minute);
                    write_from(tally, &odd, length);
                }
            }
        }
    }
    tally.end_of_part("years of odd values written, and read again");
}

/// Years of any values, some of them put at their limits or past them, into buffers of any length.
pub fn years_written(tally: &mut Tally) {
    let mut sequence = Sequence(1665);
    let (years_outside, days_outside) = (years_outside(), days_outside());
    for _ in 0..200_000 {
        let mut year = Year { n: sequence.year(), ..Year::default() };
        year.day_name = sequence.next() % 60;
        year.mansion = sequence.next() % 28;
        for term in &mut year.terms {
            let day = sequence.below(375) as i64 - 4;
            *term = Moment { day, minute: sequence.next() % 1_440 };
        }
        for _ in 0..sequence.below(3) {
            let term = sequence.below(24);
            match sequence.below(8) {
                0 => year.n = sequence.one_of(&years_outside),
                1 => year.n = sequence.one_of(&[-2_000, 2_000]),
                2 => year.day_name = sequence.one_of(&above(59)),
                3 => year.mansion = sequence.one_of(&above(27)),
                4 => year.terms[term].day = sequence.one_of(&days_outside),
                5 => year.terms[term].day = sequence.one_of(&[-4, 370]),
                _ => year.terms[term].minute = sequence.one_of(&above(1_439)),
            }
        }
        let length = match sequence.below(8) {
            0 => sequence.below(YEAR_BYTES),
            1 => YEAR_BYTES - 1,
            2 => YEAR_BYTES + sequence.below(YEAR_BYTES),
            _ => YEAR_BYTES,
        };
        write_from(tally, &year, length);
    }
    tally.end_of_part("years of any values written, and read again");
}
