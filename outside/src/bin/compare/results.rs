//! The `Result`s of the bindings, each with an answer and its refusals.

use crate::{Tally, BEFORE_BYTE};
use outside::reckoning::book::{self, YEAR_BYTES};
use outside::{reckoning, Moment, Refusal, Term, Year};
use std::fmt::Debug;

/// The bindings' types are not ours, but have the same names and fields: equal ones print the same.
fn case(tally: &mut Tally, name: &str, library: impl Debug, ours: impl Debug) {
    tally.case(|| name.to_string(), format!("{library:?}"), format!("{ours:?}"));
}

pub fn results(tally: &mut Tally, shelf: &[u8]) {
    for n in [-676, 0, 2_001] {
        case(tally, "year's result", bhromilun::year(n), reckoning::year(n));
        for k in [5, 24] {
            case(tally, "term's result", bhromilun::term(n, k), reckoning::term(n, k));
            let ours = reckoning::crossing(n, k);
            case(tally, "crossing's result", bhromilun::crossing(n, k), ours);
        }
        let ours: Result<Vec<Term>, Refusal> = (0..24).map(|k| reckoning::term(n, k)).collect();
        case(tally, "year call's result", bhromilun::terms(n), ours);
        for day in [370, 371] {
            let ours = reckoning::mean_place(n, day);
            case(tally, "mean place's result", bhromilun::mean_place(n, day), ours);
            let ours = reckoning::true_place(n, day);
            case(tally, "true place's result", bhromilun::true_place(n, day), ours);
        }
        for length in [YEAR_BYTES - 1, YEAR_BYTES, YEAR_BYTES + 1] {
            let (mut theirs, mut ours) = (vec![BEFORE_BYTE; length], vec![BEFORE_BYTE; length]);
            let expected = book::write_year(n, &mut ours).map(|_| &ours[..YEAR_BYTES]);
            case(tally, "written year's result", bhromilun::write_year(n, &mut theirs), expected);
            for day in [370, 371] {
                let minute = 1_439;
                let year =
                    Year { n, day_name: 59, mansion: 27, terms: [Moment { day, minute }; 24] };
                let expected = book::write_year_from(&year, &mut ours).map(|_| &ours[..YEAR_BYTES]);
                let terms = [bhromilun::Moment { day, minute }; 24];
                let year = bhromilun::Year { n, day_name: 59, mansion: 27, terms };
                let answer = bhromilun::write_year_from(&year, &mut theirs);
                case(tally, "given year's result", answer, expected);
            }
        }
        for length in [0, 1, YEAR_BYTES, shelf.len() - 1, shelf.len()] {
            let part = &shelf[..length];
            let ours = book::seek_year(part, n);
            case(tally, "sought year's result", bhromilun::seek_year(part, n), ours);
            for sheet in [&[][..], &shelf[..YEAR_BYTES], part] {
                let ours = book::corrected_year(sheet, part, n);
                let answer = bhromilun::corrected_year(sheet, part, n);
                case(tally, "corrected year's result", answer, ours);
            }
            let ours = book::check_book(part);
            case(tally, "checked book's result", bhromilun::check_book(part), ours);
            let ours = book::verify_book(part);
            case(tally, "verified book's result", bhromilun::verify_book(part), ours);
            let mut other = part.to_vec();
            if let Some(byte) = other.get_mut(3) {
                *byte = (*byte + 1) % 60;
            }
            let ours = book::verify_book(&other);
            case(tally, "verified book's result", bhromilun::verify_book(&other), ours);
            let ours = book::read_year(part).map(|(year, end)| (year, part.len() - end));
            let answer = bhromilun::read_year(part).map(|(year, rest)| (year, rest.len()));
            case(tally, "read year's result", answer, ours);
        }
    }
    let ours = reckoning::equation(30 * reckoning::DEGREE as i64);
    case(tally, "equation's result", bhromilun::equation(30 * reckoning::DEGREE as i64), ours);
    for longitude in [13_284, 648_001] {
        let ours = reckoning::local_time(10, 1_435, longitude);
        case(tally, "local time's result", bhromilun::local_time(10, 1_435, longitude), ours);
    }
    tally.end_of_part("results of the bindings");
}
