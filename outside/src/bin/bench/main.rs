//! The library's time beside that of `fast`, as a Markdown table: nanoseconds a call and the ratio.
//! Both get the same inputs and the same buffers, in one run, in turn; the least of fifty repetitions
//! counts. Each gives a sum of its answers, and the two sums must be equal.

use bhromilun::plain;
use outside::reckoning::book::YEAR_BYTES;
use outside::{fast, Term, Verdict};
use std::time::Instant;

const REPETITIONS: usize = 50;
const YEARS: usize = 4_001;

/// Hides a value from the compiler, so that work on it is neither foreseen nor done only once.
fn hidden<T: Copy>(value: T) -> T {
    unsafe { std::ptr::read_volatile(&value) }
}

/// The years of a row leap about, so that no branch is guessed from the year before.
fn year_of(call: usize) -> i64 {
    hidden((call * 1_597 % YEARS) as i64 - 2_000)
}

fn main() {
    let mut book = vec![0; YEARS * YEAR_BYTES];
    for (place, part) in book.chunks_mut(YEAR_BYTES).enumerate() {
        bhromilun::write_year(place as i64 - 2_000, part).unwrap();
    }
    // Every 200th year of the book, up to 1,800.
    let sheet: Vec<u8> = book.chunks(YEAR_BYTES).step_by(200).take(20).flatten().copied().collect();
    let mut buffer = [0; YEAR_BYTES];

    println!("| Work | Library, ns | Ours, ns | Ratio |");
    println!("|---|---:|---:|---:|");
    row(
        "the year call",
        2_000,
        |call| library_terms(year_of(call)),
        |call| fast::Year::new(year_of(call)).map_or(0, |year| sum_of_terms(|k| year.term(k))),
    );
    row(
        "the year call, ours walking as the library does",
        2_000,
        |call| library_terms(year_of(call)),
        |call| {
            fast::Year::new(year_of(call)).map_or(0, |year| sum_of_terms(|k| year.term_walked(k)))
        },
    );
    row(
        "a term",
        40_000,
        |call| sum_of(library_term(year_of(call), term_of(call))),
        |call| fast::Year::new(year_of(call)).map_or(0, |year| sum_of(year.term(term_of(call)))),
    );
    row(
        "a true place",
        200_000,
        |call| {
            let mut place = 0;
            plain::true_place(year_of(call), day_of(call), &mut place) + place
        },
        |call| fast::true_place(year_of(call), day_of(call)).unwrap_or(0),
    );
    row(
        "checking the book of 4,001 years",
        20,
        |_| {
            let mut byte = 0;
            plain::check_book(hidden(&book[..]), &mut byte) + byte
        },
        |_| {
            let bytes = hidden(&book[..]);
            fast::check_book(bytes).map_or(0, |_| bytes.len() as u64)
        },
    );
    row(
        "seeking the last year in it",
        20,
        |_| sum_of_part(bhromilun::seek_year(hidden(&book[..]), hidden(2_000))),
        |_| sum_of_part(fast::seek_year(hidden(&book[..]), hidden(2_000))),
    );
    for (name, n) in [
        ("seeking in it and a sheet of 20 years, a year of the sheet", 1_800),
        ("seeking in it and a sheet of 20 years, a year of the book alone", 2_000),
    ] {
        row(
            name,
            20,
            |_| {
                let (sheet, book) = (hidden(&sheet[..]), hidden(&book[..]));
                let year = bhromilun::corrected_year(sheet, book, hidden(n));
                sum_of_part(year.map(|year| year.part))
            },
            |_| {
                let (sheet, book) = (hidden(&sheet[..]), hidden(&book[..]));
                let year = fast::corrected_year(sheet, book, hidden(n));
                sum_of_part(year.map(|year| year.part))
            },
        );
    }
    // In the other book the first record is not ours: its day name is another.
    let mut other = book.clone();
    other[3] = (other[3] + 1) % 60;
    let [whole, first] = [
        ("verifying the book of 4,001 years", 1, &book),
        ("verifying it, its first record not ours", 20, &other),
    ]
    .map(|(name, calls, book)| {
        row(
            name,
            calls,
            |_| {
                let mut byte = 0;
                plain::verify_book(hidden(&book[..]), &mut byte) + byte
            },
            |_| match fast::verify_book(hidden(&book[..])) {
                Ok(Verdict::Ours) => 0,
                Ok(Verdict::NotOurs { byte }) => plain::NOT_OURS + byte as u64,
                Err(refusal) => refusal.number,
            },
        )
    });
    assert!(first < whole / 10.0, "a first record that is not ours costs {first} ns");
    // The buffer is lent to the one and then to the other.
    let lent = std::cell::RefCell::new(&mut buffer[..]);
    row(
        "writing a year",
        2_000,
        |call| {
            let buffer = &mut lent.borrow_mut()[..];
            plain::write_year(year_of(call), buffer) + sum_of_bytes(buffer)
        },
        |call| {
            let buffer = &mut lent.borrow_mut()[..];
            let number = fast::write_year(year_of(call), buffer).map_or(1, |_| 0);
            number + sum_of_bytes(buffer)
        },
    );
}

fn day_of(call: usize) -> i64 {
    hidden((call * 233 % 375) as i64 - 4)
}

fn term_of(call: usize) -> u64 {
    hidden((call * 7 % 24) as u64)
}

fn library_terms(n: i64) -> u64 {
    let (mut days, mut minutes, mut counts) = ([0; 24], [0; 24], [0; 24]);
    plain::terms(n, &mut days, &mut minutes, &mut counts);
    sum_of_terms(|k| {
        let k = k as usize;
        Term { day: days[k], minute: minutes[k], count: counts[k] }
    })
}

fn library_term(n: i64, k: u64) -> Term {
    let mut term = Term::default();
    plain::term(n, k, &mut term.day, &mut term.minute, &mut term.count);
    term
}

fn sum_of(Term { day, minute, count }: Term) -> u64 {
    (day as u64).wrapping_mul(1_440).wrapping_add(minute + count)
}

fn sum_of_terms(term: impl Fn(u64) -> Term) -> u64 {
    (0..24).map(|k| sum_of(term(hidden(k)))).fold(0, u64::wrapping_add)
}

fn sum_of_part<Refusal>(part: Result<&[u8], Refusal>) -> u64 {
    part.map_or(0, |part| part.as_ptr() as u64 + part.len() as u64)
}

/// The last eight bytes stand for the buffer: they are the last to be written.
fn sum_of_bytes(buffer: &[u8]) -> u64 {
    buffer[YEAR_BYTES - 8..].iter().map(|&byte| u64::from(byte)).sum()
}

/// Nanoseconds a call, and the sum of the answers.
fn timed(calls: usize, work: &mut impl FnMut(usize) -> u64) -> (f64, u64) {
    let start = Instant::now();
    let sum = (0..calls).map(work).fold(0, u64::wrapping_add);
    (start.elapsed().as_nanos() as f64 / calls as f64, sum)
}

/// Prints the row, and gives the nanoseconds of a call of the library.
fn row(
    name: &str,
    calls: usize,
    mut library: impl FnMut(usize) -> u64,
    mut ours: impl FnMut(usize) -> u64,
) -> f64 {
    let (mut least, mut our_least) = (f64::INFINITY, f64::INFINITY);
    for _ in 0..REPETITIONS {
        let (time, sum) = timed(calls, &mut library);
        let (our_time, our_sum) = timed(calls, &mut ours);
        assert_eq!(sum, our_sum, "{name}: the answers differ");
        least = least.min(time);
        our_least = our_least.min(our_time);
    }
    println!("| {name} | {least:.0} | {our_least:.0} | {:.2} |", least / our_least);
    least
}
