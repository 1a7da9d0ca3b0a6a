//! The calls of the book: years written, whole, cut and damaged books checked and sought in.

use crate::odd::{years_outside, Sequence, YEARS};
use crate::{byte_stored, Buffer, Tally, BEFORE};
use bhromilun::plain;
use outside::reckoning::book::{self, YEAR_BYTES};

fn written(tally: &mut Tally, n: i64, length: usize) -> Buffer {
    let (mut theirs, mut ours) = (Buffer::of(length), Buffer::of(length));
    let number = plain::write_year(n, theirs.lent());
    let our_number = book::write_year(n, ours.lent()).map_or_else(|refusal| refusal.number, |_| 0);
    let name = || format!("year {n} written to {length} bytes");
    tally.case(name, (number, &theirs), (our_number, &ours));
    ours
}

/// The book of all 4,001 years by the reckoning, as the library is found to write it.
pub fn written_years(tally: &mut Tally) -> Vec<u8> {
    let mut shelf = Vec::new();
    for n in YEARS {
        for length in [YEAR_BYTES - 1, YEAR_BYTES + 1, YEAR_BYTES] {
            let mut buffer = written(tally, n, length);
            if length == YEAR_BYTES {
                shelf.extend_from_slice(buffer.lent());
            }
        }
    }
    for length in 0..=2 * YEAR_BYTES {
        written(tally, 0, length);
    }
    for n in years_outside() {
        for length in [0, YEAR_BYTES - 1, YEAR_BYTES, YEAR_BYTES + 1] {
            written(tally, n, length);
        }
    }
    tally.end_of_part("years written");
    shelf
}

fn check(tally: &mut Tally, bytes: &[u8], name: impl Fn() -> String) {
    let kept = bytes.to_vec();
    let mut byte = BEFORE;
    let number = plain::check_book(bytes, &mut byte);
    let ours = match book::check_book(&kept) {
        Ok(()) => (0, kept.len() as u64, true),
        Err(refusal) => (refusal.number, byte_stored(refusal), true),
    };
    tally.case(|| format!("checking {}", name()), (number, byte, bytes == kept), ours);
}

fn seek(tally: &mut Tally, bytes: &[u8], n: i64, name: impl Fn() -> String) {
    let kept = bytes.to_vec();
    let (mut start, mut end, mut byte) = (BEFORE, BEFORE, BEFORE);
    let number = plain::seek_year(bytes, n, &mut start, &mut end, &mut byte);
    let ours = match book::seek_start(&kept, n) {
        Ok(start) => (0, start as u64, (start + YEAR_BYTES) as u64, BEFORE, true),
        Err(refusal) => (refusal.number, BEFORE, BEFORE, byte_stored(refusal), true),
    };
    let name = || format!("seeking {n} in {}", name());
    tally.case(name, (number, start, end, byte, bytes == kept), ours);
}

pub fn whole_book(tally: &mut Tally, shelf: &[u8]) {
    let name = || "the book of all years".to_string();
    check(tally, shelf, name);
    for n in YEARS.chain(years_outside()) {
        seek(tally, shelf, n, name);
    }
    tally.end_of_part("the book of all years");
}

pub fn cut_books(tally: &mut Tally, shelf: &[u8]) {
    for length in 0..=3 * YEAR_BYTES {
        let name = || format!("a book cut after {length} bytes");
        check(tally, &shelf[..length], name);
        for n in [-2_001, -2_000, -1_999, -1_998, 0] {
            seek(tally, &shelf[..length], n, name);
        }
    }
    tally.end_of_part("books cut after each byte");
}

#[derive(Clone, Copy)]
pub struct Record {
    bytes: [u8; 6],
    length: usize,
}

/// The part of a year in the book of all years.
pub fn year_in(shelf: &[u8], n: i64) -> &[u8] {
    let start = (n + 2_000) as usize * YEAR_BYTES;
    &shelf[start..start + YEAR_BYTES]
}

/// The records of a sound year.
pub fn records(year: &[u8]) -> impl Iterator<Item = Record> + '_ {
    (0..25).map(move |place| {
        let (start, length) = if place == 0 { (0, 5) } else { (6 * place - 1, 6) };
        let mut bytes = [0; 6];
        bytes[..length].copy_from_slice(&year[start..start + length]);
        Record { bytes, length }
    })
}

pub fn put_together(records: &[Record], bytes: &mut Vec<u8>) {
    bytes.clear();
    for record in records {
        bytes.extend_from_slice(&record.bytes[..record.length]);
    }
}

/// A field of a record: its first byte, its bytes, its limit.
pub type Field = (usize, usize, u16);

impl Record {
    /// The kind is a field too; a head where a term is due, or a term for a head, is out of turn.
    pub fn fields(&self) -> [Field; 4] {
        match self.length {
            5 => [(0, 1, 2), (1, 2, 4_000), (3, 1, 59), (4, 1, 27)],
            _ => [(0, 1, 2), (1, 1, 23), (2, 2, 374), (4, 2, 1_439)],
        }
    }

    pub fn get(&self, (first, bytes, _): Field) -> u16 {
        self.bytes[first..first + bytes].iter().fold(0, |value, &byte| value << 8 | u16::from(byte))
    }

    pub fn set(&mut self, (first, bytes, _): Field, value: u16) {
        self.bytes[first..first + bytes].copy_from_slice(&value.to_be_bytes()[2 - bytes..]);
    }
}

/// What a field is given: its limit, to both sides of it, and the ends of what its bytes hold.
pub fn odd_values((_, bytes, limit): Field) -> [u16; 5] {
    [0, limit - 1, limit, limit + 1, if bytes == 1 { 255 } else { 65_535 }]
}

/// One change among the records of a book that may by now hold none.
pub fn damage_records(sequence: &mut Sequence, records: &mut Vec<Record>) {
    if records.is_empty() {
        return;
    }
    let (one, other) = (sequence.below(records.len()), sequence.below(records.len()));
    match sequence.below(5) {
        0 => {
            records.remove(one);
        }
        1 => records.insert(other, records[one]),
        2 => records.swap(one, other),
        _ => {
            let field = sequence.one_of(&records[one].fields());
            let value = sequence.one_of(&odd_values(field));
            records[one].set(field, value);
        }
    }
}

/// One change among the bytes: a cut, a byte of any value, or one a little off.
pub fn damage_bytes(sequence: &mut Sequence, bytes: &mut Vec<u8>) {
    if bytes.is_empty() {
        return;
    }
    let place = sequence.below(bytes.len());
    match sequence.below(3) {
        0 => bytes.truncate(place),
        1 => bytes[place] = sequence.next() as u8,
        _ => bytes[place] = bytes[place].wrapping_add(sequence.one_of(&[1, 255])),
    }
}

/// None to three changes, some among the records, and some among the bytes that they make.
pub fn damage(sequence: &mut Sequence, records: &mut Vec<Record>, bytes: &mut Vec<u8>) {
    let among_records = sequence.below(3);
    for _ in 0..among_records {
        damage_records(sequence, records);
    }
    put_together(records, bytes);
    let among_bytes = sequence.below(if among_records == 2 { 2 } else { 3 });
    for _ in 0..among_bytes {
        damage_bytes(sequence, bytes);
    }
}

/// Books of one to three years, mostly in order, with none to three changes; some stay sound.
pub fn damaged_books(tally: &mut Tally, shelf: &[u8]) {
    let mut sequence = Sequence(1742);
    let mut list = Vec::new();
    let mut bytes = Vec::new();
    for number in 0..1_250_000 {
        let mut years = [0; 3].map(|_| sequence.year());
        if sequence.below(8) != 0 {
            years.sort_unstable();
        }
        let years = &years[..1 + sequence.below(3)];
        list.clear();
        for &n in years {
            list.extend(records(year_in(shelf, n)));
        }
        damage(&mut sequence, &mut list, &mut bytes);
        let sought = match sequence.below(8) {
            0 => sequence.one_of(&[i64::MIN, -2_001, 2_001, i64::MAX]),
            1 => sequence.year(),
            2 => sequence.one_of(years) + 1,
            _ => sequence.one_of(years),
        };
        let name = || format!("damaged book {number}, {bytes:02x?}");
        check(tally, &bytes, name);
        seek(tally, &bytes, sought, name);
    }
    tally.end_of_part("damaged books");
}
