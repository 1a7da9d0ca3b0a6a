//! The reckoning once more, written for speed: 64-bit numbers, an entry and its step side by side, what
//! a year shares worked out once. Its tests hold it to `reckoning`; the benchmark compares with it.

use crate::reckoning::tables::{SINES, TANGENTS};
use crate::reckoning::{self, book::YEAR_BYTES};
use crate::{CorrectedRefusal, CorrectedYear, Refusal, Term, Verdict, Which};

const CIRCLE: i64 = reckoning::CIRCLE as i64;
const HALF_CIRCLE: u64 = reckoning::CIRCLE as u64 / 2;
const QUARTER: u64 = reckoning::CIRCLE as u64 / 4;
const MINUTE: u64 = 60 * reckoning::SECOND as u64;
const TEN_MINUTES: u64 = 10 * MINUTE;
const FIFTEEN_DEGREES: i64 = CIRCLE / 24;
const RADIUS: u64 = reckoning::tables::RADIUS as u64;
const DAY: i64 = reckoning::DAY as i64;
const DAILY_MOTION: i64 = reckoning::DAILY_MOTION as i64;
const ANOMALY_DAILY: i64 = DAILY_MOTION - reckoning::PERIGEE_DAILY as i64;
const EPICYCLE_DIFFERENCE: u64 = reckoning::EPICYCLE_DIFFERENCE as u64;

#[derive(Clone, Copy)]
struct Entry {
    value: u32,
    step: u32,
}

/// The last entry has no step: the 1 that stands there only ever meets a rest of 0.
const fn with_steps<const LENGTH: usize>(table: [i128; LENGTH]) -> [Entry; LENGTH] {
    let mut entries = [Entry { value: 0, step: 1 }; LENGTH];
    let mut k = 0;
    while k < LENGTH {
        entries[k].value = table[k] as u32;
        if k + 1 < LENGTH {
            entries[k].step = (table[k + 1] - table[k]) as u32;
        }
        k += 1;
    }
    entries
}

static SINE: [Entry; SINES] = with_steps(reckoning::tables::sines());
static TANGENT: [Entry; TANGENTS] = with_steps(reckoning::tables::tangents());

/// `angle` is at most a quarter circle.
#[inline]
fn sine(angle: u64) -> u64 {
    let below = angle / TEN_MINUTES;
    let rest = angle % TEN_MINUTES;
    let entry = SINE[below as usize];
    u64::from(entry.value) + u64::from(entry.step) * rest / TEN_MINUTES
}

#[inline]
fn along_radius(sine: u64) -> u64 {
    (EPICYCLE_DIFFERENCE * sine + RADIUS / 2) / RADIUS
}

/// No anomaly gives a tangent above 358,475, and the table ends at 378,335: nothing is refused here.
#[inline]
fn angle_of(tangent: u64) -> u64 {
    // Entries lie from 2,908 to 2,914 apart, so that this is the minute or the one after it.
    let mut minute = tangent / 2_908;
    if u64::from(TANGENT[minute as usize].value) > tangent {
        minute -= 1;
    }
    let entry = TANGENT[minute as usize];
    minute * MINUTE + (tangent - u64::from(entry.value)) * MINUTE / u64::from(entry.step)
}

/// `anomaly` is within the circle.
#[inline]
fn equation_within(anomaly: u64) -> i64 {
    let added = anomaly < HALF_CIRCLE;
    let from_perigee = if added { anomaly } else { CIRCLE as u64 - anomaly };
    let within_quarter = from_perigee <= QUARTER;
    let angle = if within_quarter { from_perigee } else { HALF_CIRCLE - from_perigee };
    let height = along_radius(sine(angle));
    let base = along_radius(sine(QUARTER - angle));
    let long_side = if within_quarter { RADIUS - base } else { RADIUS + base };
    let tangent = (2 * height * RADIUS + long_side / 2) / long_side;
    let equation = angle_of(tangent) as i64;
    if added {
        equation
    } else {
        -equation
    }
}

pub fn equation(anomaly: i64) -> i64 {
    equation_within(anomaly.rem_euclid(CIRCLE) as u64)
}

/// What every midnight and term of one year shares.
pub struct Year {
    n: i64,
    day_name: u8,
    mansion: u8,
    root: i64,
    /// The anomaly at day 0, not brought into the circle.
    anomaly: i64,
}

impl Year {
    #[inline]
    pub fn new(n: i64) -> Result<Year, Refusal> {
        if !(-2_000..=2_000).contains(&n) {
            return Err(Refusal::number(1));
        }
        let years = n * reckoning::YEAR as i64;
        let solstice = years + reckoning::DAY_EPOCH as i64;
        let mansion_count = (years + reckoning::MANSION_EPOCH as i64).div_euclid(DAY) + 1;
        let left = DAY - solstice.rem_euclid(DAY);
        // The daily motion is taken apart at the thousand-million, or the product would pass 64 bits.
        let root = left * (DAILY_MOTION / DAY) + (left * (DAILY_MOTION % DAY) + DAY / 2) / DAY;
        let perigee = reckoning::PERIGEE_EPOCH as i64 + n * reckoning::PERIGEE_YEARLY as i64;
        Ok(Year {
            n,
            day_name: solstice.div_euclid(DAY).rem_euclid(60) as u8,
            mansion: mansion_count.rem_euclid(28) as u8,
            root,
            anomaly: root - perigee,
        })
    }

    /// The run-on place.
    #[inline]
    fn place(&self, day: i64) -> i64 {
        self.root + day * DAILY_MOTION + equation(self.anomaly + day * ANOMALY_DAILY)
    }

    /// `k` is at most 23. One place tells how far the mean sun's day is off; as the places rise with
    /// the days, any way to the pair about the mark finds the same pair, and the count follows.
    #[inline]
    pub fn term(&self, k: u64) -> Term {
        let mark = k as i64 * FIFTEEN_DEGREES;
        let mean_day = (mark - self.root).div_euclid(DAILY_MOTION);
        let mean_day_place = self.place(mean_day);
        let mut day = mean_day + (mark - mean_day_place).div_euclid(DAILY_MOTION);
        let mut place = if day == mean_day { mean_day_place } else { self.place(day) };
        let mut next;
        if place > mark {
            loop {
                next = place;
                day -= 1;
                place = self.place(day);
                if place <= mark {
                    break;
                }
            }
        } else {
            loop {
                next = self.place(day + 1);
                if next > mark {
                    break;
                }
                day += 1;
                place = next;
            }
        }
        printed(day, mark - place, next - place, (day + 2 - (mean_day - 3)) as u64)
    }

    /// The same term by the document's own walk from three days before, for the benchmark: so much
    /// of a ratio is due to the way, and so much to the code.
    #[inline]
    pub fn term_walked(&self, k: u64) -> Term {
        let mark = k as i64 * FIFTEEN_DEGREES;
        let start = (mark - self.root).div_euclid(DAILY_MOTION) - 3;
        let mut day = start;
        let mut place = self.place(day);
        loop {
            let next = self.place(day + 1);
            if next > mark {
                return printed(day, mark - place, next - place, (day + 2 - start) as u64);
            }
            day += 1;
            place = next;
        }
    }
}

/// A term `gone` units past the midnight of `day`, of `step` to the next: half a minute or more rounds up,
/// and minute 1,440 is minute 0 of the next day.
#[inline]
fn printed(day: i64, gone: i64, step: i64, count: u64) -> Term {
    let minute = (1_440 * gone as u64 + step as u64 / 2) / step as u64;
    let carry = minute / 1_440;
    Term { day: day + carry as i64, minute: minute - 1_440 * carry, count }
}

fn day_in_range(day: i64) -> Result<(), Refusal> {
    if (-4..=370).contains(&day) {
        Ok(())
    } else {
        Err(Refusal::number(2))
    }
}

pub fn true_place(n: i64, day: i64) -> Result<u64, Refusal> {
    let year = Year::new(n)?;
    day_in_range(day)?;
    Ok(year.place(day).rem_euclid(CIRCLE) as u64)
}

pub fn write_year(n: i64, buffer: &mut [u8]) -> Result<(), Refusal> {
    let year = Year::new(n)?;
    let bytes = match buffer.get_mut(..YEAR_BYTES) {
        Some(bytes) => bytes,
        None => return Err(Refusal::number(6)),
    };
    let [high, low] = ((year.n + 2_000) as u16).to_be_bytes();
    bytes[..5].copy_from_slice(&[1, high, low, year.day_name, year.mansion]);
    for (k, record) in bytes[5..].chunks_exact_mut(6).enumerate() {
        let term = year.term(k as u64);
        let day = ((term.day + 4) as u16).to_be_bytes();
        let minute = (term.minute as u16).to_be_bytes();
        record.copy_from_slice(&[2, k as u8, day[0], day[1], minute[0], minute[1]]);
    }
    Ok(())
}

/// Whether these 149 bytes are one sound year; faults are gathered without a branch for each record.
#[inline]
fn sound(year: &[u8]) -> bool {
    let mut faults = u32::from(year[0] != 1) | u32::from(year[3] > 59) | u32::from(year[4] > 27);
    for (k, record) in year[5..].chunks_exact(6).enumerate() {
        let day = u16::from_be_bytes([record[2], record[3]]);
        let minute = u16::from_be_bytes([record[4], record[5]]);
        faults |= u32::from(record[0] ^ 2) | u32::from(record[1] ^ k as u8);
        faults |= u32::from(day > 374) | u32::from(minute > 1_439);
    }
    faults == 0
}

/// Reads whole years at once and answers where the year `sought` (N + 2,000) begins. The slow reader
/// is asked only where something is wrong, to name it.
#[inline]
fn read(bytes: &[u8], sought: i32) -> Result<Option<usize>, Refusal> {
    let years = bytes.chunks_exact(YEAR_BYTES);
    let mut whole = years.remainder().is_empty();
    let mut year_before = -1;
    let mut found = None;
    for (place, year) in years.enumerate() {
        let this_year = i32::from(u16::from_be_bytes([year[1], year[2]]));
        if this_year <= year_before || this_year > 4_000 || !sound(year) {
            whole = false;
            break;
        }
        if this_year == sought {
            found = Some(place * YEAR_BYTES);
        }
        year_before = this_year;
    }
    if !whole {
        reckoning::book::check_book(bytes)?;
    }
    Ok(found)
}

pub fn check_book(bytes: &[u8]) -> Result<(), Refusal> {
    read(bytes, -1).map(|_| ())
}

pub fn seek_year(bytes: &[u8], n: i64) -> Result<&[u8], Refusal> {
    if !(-2_000..=2_000).contains(&n) {
        return Err(Refusal::number(1));
    }
    match read(bytes, (n + 2_000) as i32)? {
        Some(start) => Ok(&bytes[start..start + YEAR_BYTES]),
        None => Err(Refusal::number(12)),
    }
}

pub fn corrected_year<'a>(
    corrections: &'a [u8],
    main: &'a [u8],
    n: i64,
) -> Result<CorrectedYear<'a>, CorrectedRefusal> {
    if !(-2_000..=2_000).contains(&n) {
        return Err(CorrectedRefusal::number(1));
    }
    let found = |which, bytes: &'a [u8]| match read(bytes, (n + 2_000) as i32) {
        Ok(Some(start)) => {
            Ok(Some(CorrectedYear { which, part: &bytes[start..start + YEAR_BYTES] }))
        }
        Ok(None) => Ok(None),
        Err(refusal) => Err(CorrectedRefusal { refusal, which: Some(which) }),
    };
    let in_corrections = found(Which::Corrections, corrections)?;
    let in_main = found(Which::Main, main)?;
    in_corrections.or(in_main).ok_or(CorrectedRefusal::number(12))
}

/// The book is checked first; then each record is held to ours, which is worked out when it is due.
pub fn verify_book(bytes: &[u8]) -> Result<Verdict, Refusal> {
    check_book(bytes)?;
    for (place, part) in bytes.chunks_exact(YEAR_BYTES).enumerate() {
        let start = place * YEAR_BYTES;
        let year = Year::new(i64::from(u16::from_be_bytes([part[1], part[2]])) - 2_000)?;
        if part[3] != year.day_name || part[4] != year.mansion {
            return Ok(Verdict::NotOurs { byte: start });
        }
        for (k, record) in part[5..].chunks_exact(6).enumerate() {
            let term = year.term(k as u64);
            let day = i64::from(u16::from_be_bytes([record[2], record[3]])) - 4;
            let minute = u64::from(u16::from_be_bytes([record[4], record[5]]));
            if day != term.day || minute != term.minute {
                return Ok(Verdict::NotOurs { byte: start + 5 + 6 * k });
            }
        }
    }
    Ok(Verdict::Ours)
}

#[cfg(test)]
mod tests {
    use super::*;
    use reckoning::book;

    #[test]
    fn equations_along_the_circle() {
        // Steps of a prime number of units, so that few fall on an entry; and the entries themselves.
        let along = (0..CIRCLE).step_by(99_999_989);
        let entries = (0..CIRCLE).step_by(TEN_MINUTES as usize);
        for anomaly in along.chain(entries).chain([i64::MIN, -1, CIRCLE, i64::MAX]) {
            assert_eq!(Ok(equation(anomaly)), reckoning::equation(anomaly), "at {anomaly}");
        }
    }

    #[test]
    fn places() {
        for n in (-2_001..=2_001).step_by(29) {
            for day in -5..=371 {
                assert_eq!(true_place(n, day), reckoning::true_place(n, day), "{n}, day {day}");
            }
        }
    }

    #[test]
    fn terms() {
        for n in (-2_000..=2_000).step_by(3) {
            let year = Year::new(n).unwrap();
            for k in 0..24 {
                let term = reckoning::term(n, k);
                assert_eq!(Ok(year.term(k)), term, "{n}, term {k}");
                assert_eq!(Ok(year.term_walked(k)), term, "{n}, term {k}");
            }
        }
    }

    /// A book of these years, which both write the same.
    fn written(years: &[i64]) -> Vec<u8> {
        let mut bytes = vec![0; YEAR_BYTES * years.len()];
        for (&n, part) in years.iter().zip(bytes.chunks_mut(YEAR_BYTES)) {
            let mut expected = [0; YEAR_BYTES];
            book::write_year(n, &mut expected).unwrap();
            write_year(n, part).unwrap();
            assert_eq!(part, expected);
        }
        bytes
    }

    #[test]
    fn books() {
        let mut bytes = written(&[-2_000, -1, 0, 2_000]);
        for length in 0..=bytes.len() {
            assert_eq!(check_book(&bytes[..length]), book::check_book(&bytes[..length]));
        }
        for n in [-2_001, -2_000, -2, -1, 0, 1, 2_000, 2_001] {
            assert_eq!(seek_year(&bytes, n), book::seek_year(&bytes, n), "{n}");
        }
        for byte in 0..bytes.len() {
            let kept = bytes[byte];
            for value in 0..=255 {
                bytes[byte] = value;
                assert_eq!(seek_year(&bytes, 0), book::seek_year(&bytes, 0), "{byte}: {value}");
            }
            bytes[byte] = kept;
        }
    }

    /// The same answer, and the same part of the same book.
    fn same_corrected_year(corrections: &[u8], main: &[u8], n: i64) {
        let (ours, expected) =
            (corrected_year(corrections, main, n), book::corrected_year(corrections, main, n));
        assert_eq!(ours, expected, "{n} of {corrections:02x?} and {main:02x?}");
        if let (Ok(ours), Ok(expected)) = (ours, expected) {
            assert!(std::ptr::eq(ours.part, expected.part), "{n} of another book");
        }
    }

    #[test]
    fn corrected_years() {
        let (mut corrections, mut main) = (written(&[-1, 2_000]), written(&[-2_000, -1, 0]));
        let sought = [-2_001, -2_000, -2, -1, 0, 1, 2_000, 2_001];
        for n in sought {
            same_corrected_year(&corrections, &main, n);
            same_corrected_year(&corrections, &corrections, n);
            same_corrected_year(&corrections, &corrections.clone(), n);
            for length in 0..=corrections.len() {
                same_corrected_year(&corrections[..length], &main, n);
                same_corrected_year(&corrections[..length], &main[..length], n);
            }
            for length in 0..=main.len() {
                same_corrected_year(&corrections, &main[..length], n);
            }
        }
        for byte in 0..corrections.len() {
            let kept = (corrections[byte], main[byte]);
            for value in 0..=255 {
                corrections[byte] = value;
                same_corrected_year(&corrections, &main, -1);
                main[byte] = value;
                same_corrected_year(&corrections, &main, -1);
                corrections[byte] = kept.0;
                same_corrected_year(&corrections, &main, -1);
                main[byte] = kept.1;
            }
        }
    }

    #[test]
    fn partners_books() {
        let mut bytes = written(&[-2_000, 0, 2_000]);
        for length in 0..=bytes.len() {
            assert_eq!(verify_book(&bytes[..length]), book::verify_book(&bytes[..length]));
        }
        for byte in 0..bytes.len() {
            let kept = bytes[byte];
            for value in [0, 1, 2, kept.wrapping_sub(1), kept.wrapping_add(1), 255] {
                bytes[byte] = value;
                assert_eq!(verify_book(&bytes), book::verify_book(&bytes), "{byte}: {value}");
            }
            bytes[byte] = kept;
        }
    }
}
