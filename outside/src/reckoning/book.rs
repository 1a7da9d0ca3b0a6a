//! The term book: its writers, its check, the reading of one year and the search for one, as document
//! 01 sets them out; the search in two books, as request K1 of document 02 does, and the comparison of a
//! partner's book with ours, as request K4 does. The check reads record by record; a fault is named by its
//! number and the record's first byte.

use super::{term, year, year_in_range};
use crate::{CorrectedRefusal, CorrectedYear, Moment, Refusal, Verdict, Which, Year};

pub const YEAR_BYTES: usize = 149;

const HEAD: u8 = 1;
const TERM: u8 = 2;

/// Refusals 1 and 6, which come before all others.
fn room_for(n: i64, buffer: &[u8]) -> Result<(), Refusal> {
    year_in_range(n)?;
    if buffer.len() < YEAR_BYTES {
        return Err(Refusal::number(6));
    }
    Ok(())
}

fn bytes_of(year: &Year) -> Vec<u8> {
    let mut bytes = vec![HEAD];
    bytes.extend(((year.n + 2_000) as u16).to_be_bytes());
    bytes.extend([year.day_name as u8, year.mansion as u8]);
    for (k, term) in year.terms.iter().enumerate() {
        bytes.extend([TERM, k as u8]);
        bytes.extend(((term.day + 4) as u16).to_be_bytes());
        bytes.extend((term.minute as u16).to_be_bytes());
    }
    bytes
}

/// A year as we reckon it.
pub fn worked_year(n: i64) -> Result<Year, Refusal> {
    let solstice = year(n)?;
    let mut worked =
        Year { n, day_name: solstice.day_name, mansion: solstice.mansion, ..Year::default() };
    for (k, moment) in worked.terms.iter_mut().enumerate() {
        let found = term(n, k as u64)?;
        *moment = Moment { day: found.day, minute: found.minute };
    }
    Ok(worked)
}

pub fn write_year(n: i64, buffer: &mut [u8]) -> Result<(), Refusal> {
    room_for(n, buffer)?;
    buffer[..YEAR_BYTES].copy_from_slice(&bytes_of(&worked_year(n)?));
    Ok(())
}

pub fn write_year_from(year: &Year, buffer: &mut [u8]) -> Result<(), Refusal> {
    room_for(year.n, buffer)?;
    let may_be = |term: &Moment| (-4..=370).contains(&term.day) && term.minute <= 1_439;
    if year.day_name > 59 || year.mansion > 27 || !year.terms.iter().all(may_be) {
        return Err(Refusal::number(9));
    }
    buffer[..YEAR_BYTES].copy_from_slice(&bytes_of(year));
    Ok(())
}

/// What the next record must be.
#[derive(Clone, Copy)]
enum Due {
    Head,
    Term(u8),
}

fn pair(body: &[u8], first: usize) -> u16 {
    u16::from_be_bytes([body[first], body[first + 1]])
}

/// The body of the record that starts at a byte, which is not past the last.
fn body_at(bytes: &[u8], at: usize, due: Due, year_before: Option<u16>) -> Result<&[u8], Refusal> {
    let refused = |number| Err(Refusal { number, byte: Some(at) });
    let record = &bytes[at..];
    let body_length = match record[0] {
        HEAD => 4,
        TERM => 5,
        _ => return refused(8),
    };
    let body = match record.get(1..1 + body_length) {
        Some(body) => body,
        None => return refused(7),
    };
    match (due, record[0]) {
        (Due::Head, HEAD) => {
            let this_year = pair(body, 0);
            if year_before.map_or(false, |before| this_year <= before) {
                return refused(10);
            }
            if this_year > 4_000 || body[2] > 59 || body[3] > 27 {
                return refused(9);
            }
        }
        (Due::Term(k), TERM) => {
            if body[0] != k {
                return refused(10);
            }
            if pair(body, 1) > 374 || pair(body, 3) > 1_439 {
                return refused(9);
            }
        }
        _ => return refused(10),
    }
    Ok(body)
}

/// Reads the book to its end and shows the year (N + 2,000) and first byte of each head to `visit`.
fn read(bytes: &[u8], mut visit: impl FnMut(u16, usize)) -> Result<(), Refusal> {
    let mut due = Due::Head;
    let mut year_before: Option<u16> = None;
    let mut at = 0;
    while at < bytes.len() {
        let body = body_at(bytes, at, due, year_before)?;
        due = match due {
            Due::Head => {
                let this_year = pair(body, 0);
                visit(this_year, at);
                year_before = Some(this_year);
                Due::Term(0)
            }
            Due::Term(23) => Due::Head,
            Due::Term(k) => Due::Term(k + 1),
        };
        at += 1 + body.len();
    }
    match due {
        Due::Head => Ok(()),
        Due::Term(_) => Err(Refusal { number: 10, byte: Some(bytes.len()) }),
    }
}

/// The year at the start of the bytes, and the byte after it; what follows is not looked at.
pub fn read_year(bytes: &[u8]) -> Result<(Year, usize), Refusal> {
    let mut year = Year::default();
    let mut at = 0;
    for due in [Due::Head].into_iter().chain((0..24).map(Due::Term)) {
        if at == bytes.len() {
            return Err(Refusal { number: 10, byte: Some(at) });
        }
        let body = body_at(bytes, at, due, None)?;
        match due {
            Due::Head => {
                year.n = i64::from(pair(body, 0)) - 2_000;
                year.day_name = u64::from(body[2]);
                year.mansion = u64::from(body[3]);
            }
            Due::Term(k) => {
                let day = i64::from(pair(body, 1)) - 4;
                year.terms[usize::from(k)] = Moment { day, minute: u64::from(pair(body, 3)) };
            }
        }
        at += 1 + body.len();
    }
    Ok((year, at))
}

pub fn check_book(bytes: &[u8]) -> Result<(), Refusal> {
    read(bytes, |_, _| {})
}

/// The first byte of the year's part, if the book has it; the whole book is read. `n` is in range.
fn find(bytes: &[u8], n: i64) -> Result<Option<usize>, Refusal> {
    let mut found = None;
    read(bytes, |this_year, at| {
        if i64::from(this_year) == n + 2_000 {
            found = Some(at);
        }
    })?;
    Ok(found)
}

/// The first byte of the year's part. The whole book is read before a year is called absent.
pub fn seek_start(bytes: &[u8], n: i64) -> Result<usize, Refusal> {
    year_in_range(n)?;
    find(bytes, n)?.ok_or(Refusal::number(12))
}

pub fn seek_year(bytes: &[u8], n: i64) -> Result<&[u8], Refusal> {
    let start = seek_start(bytes, n)?;
    Ok(&bytes[start..start + YEAR_BYTES])
}

/// Request K1: which book the year comes from, and the first byte of its part there. Both books are
/// read whole, the corrections first, also where these have the year.
pub fn corrected_start(
    corrections: &[u8],
    main: &[u8],
    n: i64,
) -> Result<(Which, usize), CorrectedRefusal> {
    let refused_by = |which| move |refusal| CorrectedRefusal { refusal, which };
    year_in_range(n).map_err(refused_by(None))?;
    let in_corrections = find(corrections, n).map_err(refused_by(Some(Which::Corrections)))?;
    let in_main = find(main, n).map_err(refused_by(Some(Which::Main)))?;
    match (in_corrections, in_main) {
        (Some(start), _) => Ok((Which::Corrections, start)),
        (None, Some(start)) => Ok((Which::Main, start)),
        (None, None) => Err(CorrectedRefusal::number(12)),
    }
}

/// The year's part of whichever book it comes from.
pub fn corrected_year<'a>(
    corrections: &'a [u8],
    main: &'a [u8],
    n: i64,
) -> Result<CorrectedYear<'a>, CorrectedRefusal> {
    let (which, start) = corrected_start(corrections, main, n)?;
    let book = match which {
        Which::Corrections => corrections,
        Which::Main => main,
    };
    Ok(CorrectedYear { which, part: &book[start..start + YEAR_BYTES] })
}

/// Request K4: whether each year's day name and mansion and each term's day and minute are ours, which
/// `our_year` has. The whole book is read before anything is compared.
pub fn verify_with(bytes: &[u8], our_year: impl Fn(i64) -> Year) -> Result<Verdict, Refusal> {
    check_book(bytes)?;
    let mut start = 0;
    while start < bytes.len() {
        let (theirs, length) = read_year(&bytes[start..])?;
        let ours = our_year(theirs.n);
        if theirs.day_name != ours.day_name || theirs.mansion != ours.mansion {
            return Ok(Verdict::NotOurs { byte: start });
        }
        if let Some(k) = (0..24).find(|&k| theirs.terms[k] != ours.terms[k]) {
            return Ok(Verdict::NotOurs { byte: start + 5 + 6 * k });
        }
        start += length;
    }
    Ok(Verdict::Ours)
}

pub fn verify_book(bytes: &[u8]) -> Result<Verdict, Refusal> {
    // A sound book's N is in range.
    verify_with(bytes, |n| worked_year(n).unwrap())
}

#[cfg(test)]
mod tests {
    use super::*;
    use crate::reckoning::crossing;

    fn book(years: &[i64]) -> Vec<u8> {
        let mut bytes = vec![0; YEAR_BYTES * years.len()];
        for (&n, part) in years.iter().zip(bytes.chunks_mut(YEAR_BYTES)) {
            write_year(n, part).unwrap();
        }
        bytes
    }

    fn at(number: u64, byte: usize) -> Result<(), Refusal> {
        Err(Refusal { number, byte: Some(byte) })
    }

    fn changed(byte: usize, value: u8) -> Result<(), Refusal> {
        let mut bytes = book(&[-1, 0]);
        bytes[byte] = value;
        check_book(&bytes)
    }

    #[test]
    fn sound_books() {
        assert_eq!(check_book(&[]), Ok(()));
        assert_eq!(check_book(&book(&[0])), Ok(()));
        assert_eq!(check_book(&book(&[-2_000, 0, 2_000])), Ok(()));
    }

    #[test]
    fn buffers_of_148_149_and_150_bytes() {
        assert_eq!(write_year(0, &mut [9; 148]), Err(Refusal::number(6)));
        assert_eq!(write_year(2_001, &mut [9; 148]), Err(Refusal::number(1)));
        assert_eq!(write_year(0, &mut [9; 149]), Ok(()));
        let mut buffer = [9; 150];
        assert_eq!(write_year(0, &mut buffer), Ok(()));
        assert_eq!(buffer[..5], [1, 0x07, 0xd0, 7, 6]);
        assert_eq!(buffer[149], 9);
    }

    #[test]
    fn book_cut_after_each_byte() {
        let whole = book(&[-1, 0]);
        for length in 0..=whole.len() {
            let in_year = length % YEAR_BYTES;
            let record = if in_year < 5 { 0 } else { 5 + (in_year - 5) / 6 * 6 };
            let expected = match (in_year, in_year == record) {
                (0, _) => Ok(()),
                (_, true) => at(10, length),
                (_, false) => at(7, length - in_year + record),
            };
            assert_eq!(check_book(&whole[..length]), expected, "cut at {length}");
        }
    }

    #[test]
    fn faults_in_their_order() {
        assert_eq!(changed(149, 3), at(8, 149));
        assert_eq!(changed(149, 2), at(10, 149));
        assert_eq!(changed(5, 1), at(10, 5));
        assert_eq!(changed(6, 1), at(10, 5));
        assert_eq!(changed(3, 60), at(9, 0));
        assert_eq!(changed(4, 28), at(9, 0));
        assert_eq!(changed(7, 2), at(9, 5));
        assert_eq!(changed(9, 6), at(9, 5));
        assert_eq!(changed(150, 0x10), at(9, 149));
        assert_eq!(check_book(&book(&[0, 0])), at(10, 149));
        assert_eq!(check_book(&book(&[0, -1])), at(10, 149));
        assert_eq!(check_book(&[7]), at(8, 0));
        assert_eq!(check_book(&[2]), at(7, 0));
    }

    #[test]
    fn between_bytes_and_values() {
        let mut bytes = book(&[0, 1]);
        let (mut year, end) = read_year(&bytes).unwrap();
        assert_eq!((year.n, year.day_name, year.mansion, end), (0, 7, 6, 149));
        assert_eq!(year.terms[0], Moment { day: -1, minute: 1_313 });
        let mut again = [9; 150];
        assert_eq!(write_year_from(&year, &mut again), Ok(()));
        assert_eq!(again[..149], bytes[..149]);
        assert_eq!(again[149], 9);
        bytes[149] = 7;
        assert_eq!(read_year(&bytes), Ok((year, 149)));
        assert_eq!(read_year(&[]), Err(Refusal { number: 10, byte: Some(0) }));
        assert_eq!(read_year(&bytes[..148]), Err(Refusal { number: 7, byte: Some(143) }));
        year.terms[23].minute = 1_440;
        assert_eq!(write_year_from(&year, &mut [9; 148]), Err(Refusal::number(6)));
        assert_eq!(write_year_from(&year, &mut [9; 149]), Err(Refusal::number(9)));
        year.n = 2_001;
        assert_eq!(write_year_from(&year, &mut [9; 148]), Err(Refusal::number(1)));
    }

    #[test]
    fn seeking() {
        let bytes = book(&[-5, 0, 7]);
        assert_eq!(seek_year(&bytes, 7), Ok(&bytes[298..]));
        assert_eq!(seek_year(&bytes, 6), Err(Refusal::number(12)));
        assert_eq!(seek_year(&bytes, 2_001), Err(Refusal::number(1)));
        assert_eq!(seek_year(&bytes[..446], -5), Err(Refusal { number: 7, byte: Some(441) }));
        assert_eq!(seek_year(&[], 0), Err(Refusal::number(12)));
    }

    /// Whether the year is handed out as that very part, of that very book.
    fn hands_out(corrections: &[u8], main: &[u8], n: i64, which: Which, part: &[u8]) -> bool {
        let year = corrected_year(corrections, main, n).unwrap();
        year.which == which && std::ptr::eq(year.part, part)
    }

    /// Books that are refused 7, 8, 9 and 10, all at the head of their second year. Their first is -1.
    fn books_at_fault() -> Vec<(Vec<u8>, Refusal)> {
        let sound = book(&[-1, 0]);
        let with = |byte: usize, value| {
            let mut bytes = sound.clone();
            bytes[byte] = value;
            bytes
        };
        let cut = sound[..YEAR_BYTES + 1].to_vec();
        [(7, cut), (8, with(149, 3)), (9, with(152, 60)), (10, with(149, 2))]
            .into_iter()
            .map(|(number, bytes)| (bytes, Refusal { number, byte: Some(YEAR_BYTES) }))
            .collect()
    }

    #[test]
    fn corrected_years() {
        let (corrections, main) = (book(&[-3, 0]), book(&[-5, 0, 7]));
        assert!(hands_out(&corrections, &main, 0, Which::Corrections, &corrections[149..]));
        assert!(hands_out(&corrections, &main, -3, Which::Corrections, &corrections[..149]));
        assert!(hands_out(&corrections, &main, -5, Which::Main, &main[..149]));
        assert!(hands_out(&corrections, &main, 7, Which::Main, &main[298..]));
        for n in [-2_000, -4, 1, 2_000] {
            let answer = corrected_year(&corrections, &main, n);
            assert_eq!(answer, Err(CorrectedRefusal::number(12)), "{n}");
        }
    }

    #[test]
    fn corrected_years_of_empty_books() {
        let years = book(&[-5, 0]);
        assert!(hands_out(&[], &years, 0, Which::Main, &years[149..]));
        assert!(hands_out(&years, &[], 0, Which::Corrections, &years[149..]));
        for (corrections, main) in [(&[][..], &[][..]), (&[], &years), (&years, &[])] {
            let answer = corrected_year(corrections, main, 1);
            assert_eq!(answer, Err(CorrectedRefusal::number(12)));
            let answer = corrected_year(corrections, main, -2_001);
            assert_eq!(answer, Err(CorrectedRefusal::number(1)));
        }
    }

    #[test]
    fn corrected_years_of_equal_books() {
        let years = book(&[-5, 0]);
        let copy = years.clone();
        assert!(hands_out(&years, &years, 0, Which::Corrections, &years[149..]));
        assert!(hands_out(&years, &copy, 0, Which::Corrections, &years[149..]));
        assert!(hands_out(&copy, &years, 0, Which::Corrections, &copy[149..]));
        // Two that overlap in one year.
        let years = book(&[-5, 0, 7]);
        assert!(hands_out(&years[..298], &years[149..], 0, Which::Corrections, &years[149..298]));
        assert!(hands_out(&years[..298], &years[149..], 7, Which::Main, &years[298..]));
    }

    /// 1, then the corrections' 7 to 10, then the main book's, then 12: each is refused before all that
    /// come after it, with a year that the one book has, the other, or neither.
    #[test]
    fn corrected_years_refused_in_order() {
        let sound = book(&[5]);
        let of = |which, refusal| Err(CorrectedRefusal { refusal, which: Some(which) });
        for (bytes, refusal) in books_at_fault() {
            for n in [-1, 5, 9] {
                let in_corrections = of(Which::Corrections, refusal);
                assert_eq!(corrected_year(&bytes, &sound, n), in_corrections);
                assert_eq!(corrected_year(&bytes, &[], n), in_corrections);
                assert_eq!(corrected_year(&bytes, &bytes, n), in_corrections);
                for (main, _) in books_at_fault() {
                    assert_eq!(corrected_year(&bytes, &main, n), in_corrections);
                }
                let in_main = of(Which::Main, refusal);
                assert_eq!(corrected_year(&sound, &bytes, n), in_main);
                assert_eq!(corrected_year(&[], &bytes, n), in_main);
            }
            for n in [i64::MIN, -2_001, 2_001, i64::MAX] {
                for (corrections, main) in [(&bytes, &sound), (&sound, &bytes), (&bytes, &bytes)] {
                    let answer = corrected_year(corrections, main, n);
                    assert_eq!(answer, Err(CorrectedRefusal::number(1)));
                }
            }
        }
    }

    #[test]
    fn partners_books() {
        assert_eq!(verify_book(&[]), Ok(Verdict::Ours));
        assert_eq!(verify_book(&book(&[-2_000, 0, 2_000])), Ok(Verdict::Ours));
        let changed = |byte: usize, by: u8| {
            let mut bytes = book(&[-1, 0]);
            bytes[byte] = bytes[byte].wrapping_add(by);
            verify_book(&bytes)
        };
        let not_ours = |byte| Ok(Verdict::NotOurs { byte });
        for (start, first) in [(0, 0), (YEAR_BYTES, 149)] {
            assert_eq!(changed(start + 3, 1), not_ours(first)); // the day name
            assert_eq!(changed(start + 4, 255), not_ours(first)); // the mansion
            for k in 0..24 {
                let record = start + 5 + 6 * k;
                assert_eq!(changed(record + 3, 1), not_ours(record)); // the day
                assert_eq!(changed(record + 5, 1), not_ours(record)); // the minute
            }
        }
        // The next year, under the N of this one.
        let mut bytes = book(&[1]);
        bytes[2] -= 1;
        assert_eq!(verify_book(&bytes), not_ours(0));
        // Of two that differ the first; and a fault before any.
        let mut bytes = book(&[-1, 0]);
        bytes[148] ^= 1;
        bytes[10] ^= 1;
        assert_eq!(verify_book(&bytes), not_ours(5));
        bytes[297] = 255;
        bytes[296] = 255;
        assert_eq!(verify_book(&bytes), Err(Refusal { number: 9, byte: Some(292) }));
        for (bytes, refusal) in books_at_fault() {
            assert_eq!(verify_book(&bytes), Err(refusal));
        }
    }

    /// The minute cut off is another's, where rounding moves it.
    #[test]
    fn partners_minutes_cut_off() {
        let mut moved = 0;
        for n in (-2_000..=2_000).step_by(97) {
            let ours = worked_year(n).unwrap();
            for k in 0..24 {
                let mut theirs = ours;
                theirs.terms[k] = crossing(n, k as u64).unwrap();
                let mut bytes = [0; YEAR_BYTES];
                write_year_from(&theirs, &mut bytes).unwrap();
                let verdict = match theirs.terms[k] == ours.terms[k] {
                    true => Verdict::Ours,
                    false => Verdict::NotOurs { byte: 5 + 6 * k },
                };
                moved += u32::from(verdict != Verdict::Ours);
                assert_eq!(verify_book(&bytes), Ok(verdict), "{n}, term {k}");
            }
        }
        assert!(400 < moved && moved < 600, "{moved}");
    }
}
