//! The calls of the reckoning: years, places, equations, terms and local times.

use crate::odd::{days_outside, years_outside, Sequence, DAYS, YEARS};
use crate::{Tally, BEFORE, BEFORE_SIGNED, COLUMN_BEFORE, DAYS_BEFORE};
use bhromilun::plain;
use outside::{reckoning, Moment, Refusal, Solstice, Term};

const CIRCLE: i64 = reckoning::CIRCLE as i64;

pub fn years(tally: &mut Tally) {
    for n in YEARS.chain(years_outside()) {
        let (mut day_name, mut fraction, mut mansion) = (BEFORE, BEFORE, BEFORE);
        let number = plain::year(n, &mut day_name, &mut fraction, &mut mansion);
        let ours = match reckoning::year(n) {
            Ok(Solstice { day_name, fraction, mansion }) => (0, day_name, fraction, mansion),
            Err(refusal) => (refusal.number, BEFORE, BEFORE, BEFORE),
        };
        tally.case(|| format!("year {n}"), (number, day_name, fraction, mansion), ours);
    }
    tally.end_of_part("years");
}

fn place(tally: &mut Tally, n: i64, day: i64) {
    let stored = |answer: Result<u64, Refusal>| match answer {
        Ok(place) => (0, place),
        Err(refusal) => (refusal.number, BEFORE),
    };
    let mut place = BEFORE;
    let number = plain::mean_place(n, day, &mut place);
    let ours = stored(reckoning::mean_place(n, day));
    tally.case(|| format!("mean place, year {n}, day {day}"), (number, place), ours);
    let mut place = BEFORE;
    let number = plain::true_place(n, day, &mut place);
    let ours = stored(reckoning::true_place(n, day));
    tally.case(|| format!("true place, year {n}, day {day}"), (number, place), ours);
}

pub fn places(tally: &mut Tally) {
    let days_outside = days_outside();
    for n in YEARS {
        for day in DAYS {
            place(tally, n, day);
        }
        for &day in &days_outside {
            place(tally, n, day);
        }
    }
    for n in years_outside() {
        for day in DAYS.chain(days_outside.iter().copied()) {
            place(tally, n, day);
        }
    }
    tally.end_of_part("mean and true places");
}

fn equation(tally: &mut Tally, anomaly: i64) {
    let mut equation = BEFORE_SIGNED;
    let number = plain::equation(anomaly, &mut equation);
    let ours = match reckoning::equation(anomaly) {
        Ok(equation) => (0, equation),
        Err(refusal) => (refusal.number, BEFORE_SIGNED),
    };
    tally.case(|| format!("equation at {anomaly}"), (number, equation), ours);
}

pub fn equations(tally: &mut Tally) {
    let ten_minutes = CIRCLE / 2_160;
    for entry in 0..=2_160 {
        for beside in -1..=1 {
            equation(tally, entry * ten_minutes + beside);
            equation(tally, entry * ten_minutes + beside - CIRCLE);
        }
    }
    for anomaly in [i64::MIN, i64::MIN + 1, i64::MAX - 1, i64::MAX] {
        equation(tally, anomaly);
    }
    // Whole circles, and a unit to each side, over all of the numbers given.
    let most_circles = i64::MAX / CIRCLE;
    for circles in (-most_circles..=most_circles).step_by(101).chain([most_circles]) {
        for beside in -1..=1 {
            equation(tally, circles * CIRCLE + beside);
        }
    }
    let mut sequence = Sequence(1684);
    for _ in 0..3_000_000 {
        equation(tally, sequence.next() as i64);
        equation(tally, (sequence.next() % CIRCLE as u64) as i64);
    }
    tally.end_of_part("equations");
}

fn term(tally: &mut Tally, n: i64, k: u64) {
    let (mut day, mut minute, mut count) = (BEFORE_SIGNED, BEFORE, BEFORE);
    let number = plain::term(n, k, &mut day, &mut minute, &mut count);
    let ours = match reckoning::term(n, k) {
        Ok(Term { day, minute, count }) => (0, day, minute, count),
        Err(refusal) => (refusal.number, BEFORE_SIGNED, BEFORE, BEFORE),
    };
    tally.case(|| format!("year {n}, term {k}"), (number, day, minute, count), ours);
}

fn crossing(tally: &mut Tally, n: i64, k: u64) {
    let (mut day, mut minute) = (BEFORE_SIGNED, BEFORE);
    let number = plain::crossing(n, k, &mut day, &mut minute);
    let ours = match reckoning::crossing(n, k) {
        Ok(Moment { day, minute }) => (0, day, minute),
        Err(refusal) => (refusal.number, BEFORE_SIGNED, BEFORE),
    };
    tally.case(|| format!("year {n}, crossing of term {k}"), (number, day, minute), ours);
}

/// Each term as it is printed, and its crossing.
pub fn terms(tally: &mut Tally) {
    let outside = [24, 25, 255, 256, 257, 1 << 32, 1 << 63, u64::MAX - 1, u64::MAX];
    for n in YEARS.chain(years_outside()) {
        for k in (0..24).chain(outside) {
            term(tally, n, k);
            crossing(tally, n, k);
        }
    }
    tally.end_of_part("terms and crossings");
}

/// The year call: one call, and a case for each of the 24 terms and for what stands beside the arrays.
pub fn year_calls(tally: &mut Tally) {
    for n in YEARS.chain(years_outside()) {
        let (mut days, mut minutes, mut counts) = (DAYS_BEFORE, COLUMN_BEFORE, COLUMN_BEFORE);
        let (lent_days, lent_minutes) = (&mut days.seats, &mut minutes.seats);
        let number = plain::terms(n, lent_days, lent_minutes, &mut counts.seats);
        for k in 0..24 {
            let ours = match reckoning::term(n, k) {
                Ok(Term { day, minute, count }) => (0, day, minute, count),
                Err(refusal) => (refusal.number, BEFORE_SIGNED, BEFORE, BEFORE),
            };
            let seat = k as usize;
            let theirs = (number, days.seats[seat], minutes.seats[seat], counts.seats[seat]);
            tally.case(|| format!("term {k} of the year call {n}"), theirs, ours);
        }
        let beside =
            (days.first, days.last, minutes.first, minutes.last, counts.first, counts.last);
        let before = (BEFORE_SIGNED, BEFORE_SIGNED, BEFORE, BEFORE, BEFORE, BEFORE);
        tally.case(|| format!("beside the arrays of the year call {n}"), beside, before);
    }
    tally.end_of_part("year calls");
}

pub fn local_times(tally: &mut Tally) {
    let mut longitudes: Vec<i64> = (-100..=100).collect();
    // Near multiples of fifteen, where seconds turn, and of 900, where minutes do.
    for size in [15, 900, 54_000, 324_000, 647_985] {
        for beside in -16..=16 {
            longitudes.extend([size + beside, -(size + beside)]);
        }
    }
    for size in (647_980..=648_020).chain([1 << 31, 1 << 32, 1 << 53, i64::MAX]) {
        longitudes.extend([size, -size]);
    }
    longitudes.extend([i64::MIN, i64::MIN + 1, 13_284, -12_795]);
    longitudes.extend((-648_000..=648_000).step_by(997));
    let mut days = vec![-5, -4, 0, 10, 369, 370, 371];
    days.extend(days_outside());
    let minutes = [0, 1, 719, 720, 1_435, 1_438, 1_439, 1_440, 1_441, 1 << 32, u64::MAX];
    for &longitude in &longitudes {
        for &day in &days {
            for minute in minutes {
                local_time(tally, day, minute, longitude);
            }
        }
    }
    tally.end_of_part("local times");
}

fn local_time(tally: &mut Tally, day: i64, minute: u64, longitude: i64) {
    let (mut day_there, mut minute_there) = (BEFORE_SIGNED, BEFORE);
    let number = plain::local_time(day, minute, longitude, &mut day_there, &mut minute_there);
    let ours = match reckoning::local_time(day, minute, longitude) {
        Ok(Moment { day, minute }) => (0, day, minute),
        Err(refusal) => (refusal.number, BEFORE_SIGNED, BEFORE),
    };
    let name = || format!("day {day}, minute {minute} at {longitude}″");
    tally.case(name, (number, day_there, minute_there), ours);
}
