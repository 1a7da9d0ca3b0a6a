//! The calls in their C shape, with references for pointers. Each answers 0 or the refusal's number, and
//! stores the rest in what it is lent last: where this file does not say otherwise, all of it on 0 and
//! nothing on a refusal. So a caller can keep its values in arrays of its own, and sees what a refusal
//! leaves as it was. [`verify_book`] has one answer more, [`NOT_OURS`]. A length or a place in a book is a
//! number of 64 bits, also where pointers are shorter.

// What C's caller must see to, the types do here: a reference is never null, is aligned, and leads to a whole
// number or array; a slice has its length; and nothing lent by `&mut` overlaps anything else.
mod library {
    extern "C" {
        pub fn bhromilun_year(
            n: i64,
            day_name: &mut u64,
            fraction: &mut u64,
            mansion: &mut u64,
        ) -> u64;
        pub fn bhromilun_equation(anomaly: i64, equation: &mut i64) -> u64;
        pub fn bhromilun_mean_place(n: i64, day: i64, place: &mut u64) -> u64;
        pub fn bhromilun_true_place(n: i64, day: i64, place: &mut u64) -> u64;
        pub fn bhromilun_term(
            n: i64,
            k: u64,
            day: &mut i64,
            minute: &mut u64,
            count: &mut u64,
        ) -> u64;
        pub fn bhromilun_crossing(n: i64, k: u64, day: &mut i64, minute: &mut u64) -> u64;
        pub fn bhromilun_terms(
            n: i64,
            days: &mut [i64; 24],
            minutes: &mut [u64; 24],
            counts: &mut [u64; 24],
        ) -> u64;
        pub fn bhromilun_local_time(
            day: i64,
            minute: u64,
            longitude: i64,
            day_there: &mut i64,
            minute_there: &mut u64,
        ) -> u64;
        pub fn bhromilun_write_year(n: i64, buffer: *mut u8, length: u64) -> u64;
        pub fn bhromilun_check_book(bytes: *const u8, length: u64, byte: &mut u64) -> u64;
        pub fn bhromilun_seek_year(
            bytes: *const u8,
            length: u64,
            n: i64,
            start: &mut u64,
            end: &mut u64,
            byte: &mut u64,
        ) -> u64;
        pub fn bhromilun_corrected_year(
            corrections: *const u8,
            corrections_length: u64,
            main_book: *const u8,
            main_length: u64,
            n: i64,
            which: &mut u64,
            start: &mut u64,
            end: &mut u64,
            byte: &mut u64,
        ) -> u64;
        pub fn bhromilun_verify_book(bytes: *const u8, length: u64, byte: &mut u64) -> u64;
        pub fn bhromilun_read_year(
            bytes: *const u8,
            length: u64,
            n: &mut i64,
            day_name: &mut u64,
            mansion: &mut u64,
            days: &mut [i64; 24],
            minutes: &mut [u64; 24],
            end: &mut u64,
            byte: &mut u64,
        ) -> u64;
        pub fn bhromilun_write_year_from(
            n: i64,
            day_name: u64,
            mansion: u64,
            days: &[i64; 24],
            minutes: &[u64; 24],
            buffer: *mut u8,
            length: u64,
        ) -> u64;
    }
}

/// See [`year`](crate::year).
pub fn year(n: i64, day_name: &mut u64, fraction: &mut u64, mansion: &mut u64) -> u64 {
    unsafe { library::bhromilun_year(n, day_name, fraction, mansion) }
}

/// See [`equation`](crate::equation).
pub fn equation(anomaly: i64, equation: &mut i64) -> u64 {
    unsafe { library::bhromilun_equation(anomaly, equation) }
}

/// See [`mean_place`](crate::mean_place).
pub fn mean_place(n: i64, day: i64, place: &mut u64) -> u64 {
    unsafe { library::bhromilun_mean_place(n, day, place) }
}

/// See [`true_place`](crate::true_place).
pub fn true_place(n: i64, day: i64, place: &mut u64) -> u64 {
    unsafe { library::bhromilun_true_place(n, day, place) }
}

/// See [`term`](crate::term).
pub fn term(n: i64, k: u64, day: &mut i64, minute: &mut u64, count: &mut u64) -> u64 {
    unsafe { library::bhromilun_term(n, k, day, minute, count) }
}

/// See [`crossing`](crate::crossing).
pub fn crossing(n: i64, k: u64, day: &mut i64, minute: &mut u64) -> u64 {
    unsafe { library::bhromilun_crossing(n, k, day, minute) }
}

/// See [`terms`](crate::terms).
pub fn terms(n: i64, days: &mut [i64; 24], minutes: &mut [u64; 24], counts: &mut [u64; 24]) -> u64 {
    unsafe { library::bhromilun_terms(n, days, minutes, counts) }
}

/// See [`local_time`](crate::local_time).
pub fn local_time(
    day: i64,
    minute: u64,
    longitude: i64,
    day_there: &mut i64,
    minute_there: &mut u64,
) -> u64 {
    unsafe { library::bhromilun_local_time(day, minute, longitude, day_there, minute_there) }
}

/// See [`write_year`](crate::write_year). On 0 the first 149 bytes are stored; later ones never.
pub fn write_year(n: i64, buffer: &mut [u8]) -> u64 {
    unsafe { library::bhromilun_write_year(n, buffer.as_mut_ptr(), buffer.len() as u64) }
}

/// See [`check_book`](crate::check_book). `byte` is stored on every answer: on 0 it is the book's length,
/// on a refusal the byte at fault.
pub fn check_book(bytes: &[u8], byte: &mut u64) -> u64 {
    unsafe { library::bhromilun_check_book(bytes.as_ptr(), bytes.len() as u64, byte) }
}

/// See [`seek_year`](crate::seek_year). `start` and `end` are stored on 0, `byte` on 7, 8, 9 and 10, and
/// none on 1 and 12.
pub fn seek_year(bytes: &[u8], n: i64, start: &mut u64, end: &mut u64, byte: &mut u64) -> u64 {
    let length = bytes.len() as u64;
    unsafe { library::bhromilun_seek_year(bytes.as_ptr(), length, n, start, end, byte) }
}

/// See [`corrected_year`](crate::corrected_year). `which` is 0 for the corrections and 1 for the main book.
/// `which`, `start` and `end` are stored on 0, `which` and `byte` on 7, 8, 9 and 10, and none on 1 and 12.
pub fn corrected_year(
    corrections: &[u8],
    main: &[u8],
    n: i64,
    which: &mut u64,
    start: &mut u64,
    end: &mut u64,
    byte: &mut u64,
) -> u64 {
    let (sheet, sheet_length) = (corrections.as_ptr(), corrections.len() as u64);
    let (book, length) = (main.as_ptr(), main.len() as u64);
    unsafe {
        library::bhromilun_corrected_year(
            sheet,
            sheet_length,
            book,
            length,
            n,
            which,
            start,
            end,
            byte,
        )
    }
}

/// What [`verify_book`] answers of a book in which a record is not ours. No refusal has this number.
pub const NOT_OURS: u64 = 100;

/// See [`verify_book`](crate::verify_book). It answers 0, a refusal's number or [`NOT_OURS`]; `byte` is stored
/// on all but 0.
pub fn verify_book(bytes: &[u8], byte: &mut u64) -> u64 {
    unsafe { library::bhromilun_verify_book(bytes.as_ptr(), bytes.len() as u64, byte) }
}

/// See [`read_year`](crate::read_year). On 0 all but `byte` is stored, `end` being the byte after the
/// year; on a refusal `byte` alone.
#[allow(clippy::too_many_arguments)]
pub fn read_year(
    bytes: &[u8],
    n: &mut i64,
    day_name: &mut u64,
    mansion: &mut u64,
    days: &mut [i64; 24],
    minutes: &mut [u64; 24],
    end: &mut u64,
    byte: &mut u64,
) -> u64 {
    let (start, length) = (bytes.as_ptr(), bytes.len() as u64);
    unsafe {
        library::bhromilun_read_year(start, length, n, day_name, mansion, days, minutes, end, byte)
    }
}

/// See [`write_year_from`](crate::write_year_from). On 0 the first 149 bytes are stored; later ones never.
pub fn write_year_from(
    n: i64,
    day_name: u64,
    mansion: u64,
    days: &[i64; 24],
    minutes: &[u64; 24],
    buffer: &mut [u8],
) -> u64 {
    let (start, length) = (buffer.as_mut_ptr(), buffer.len() as u64);
    unsafe {
        library::bhromilun_write_year_from(n, day_name, mansion, days, minutes, start, length)
    }
}
