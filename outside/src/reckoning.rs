//! Document 01's reckoning and what document 02 changed in it, sentence by sentence. All of it is in
//! 128-bit numbers, so that no product comes near its limit once the given values are in range; refusals
//! stand in the document's order.

pub mod book;
pub mod tables;

use crate::{Moment, Refusal, Solstice, Term};
use tables::{RADIUS, SINE, TANGENT};

/// Units in one second of arc.
pub const SECOND: i128 = 60_000_000;
const MINUTE: i128 = 60 * SECOND;
pub const DEGREE: i128 = 60 * MINUTE;
pub const CIRCLE: i128 = 360 * DEGREE;
const HALF_CIRCLE: i128 = CIRCLE / 2;
const QUARTER: i128 = CIRCLE / 4;

/// Thousand-millionths of a day in a day, in a year, and at the two epochs.
pub const DAY: i128 = 1_000_000_000;
pub const YEAR: i128 = 365_242_187_500;
pub const DAY_EPOCH: i128 = 7_656_374_926;
pub const MANSION_EPOCH: i128 = 5_656_374_926;

/// Units in a day or a year.
pub const DAILY_MOTION: i128 = 212_899_831_014;
pub const PERIGEE_DAILY: i128 = 10_048_140;
pub const PERIGEE_YEARLY: i128 = 3_669_999_600;
pub const PERIGEE_EPOCH: i128 = 1_548_670_000_000;

pub const EPICYCLE_DIFFERENCE: i128 = 268_812 - 89_604;

/// A quotient whose half or more is rounded up; the denominator is positive.
fn half_up(numerator: i128, denominator: i128) -> i128 {
    (2 * numerator + denominator).div_euclid(2 * denominator)
}

fn year_in_range(n: i64) -> Result<(), Refusal> {
    match n {
        -2_000..=2_000 => Ok(()),
        _ => Err(Refusal::number(1)),
    }
}

fn day_in_range(day: i64) -> Result<(), Refusal> {
    match day {
        -4..=370 => Ok(()),
        _ => Err(Refusal::number(2)),
    }
}

/// The mean solstice in thousand-millionths of a day from the jiazi day 0.
fn mean_solstice(n: i64) -> i128 {
    DAY_EPOCH + i128::from(n) * YEAR
}

pub fn year(n: i64) -> Result<Solstice, Refusal> {
    year_in_range(n)?;
    let mansion_count = (MANSION_EPOCH + i128::from(n) * YEAR).div_euclid(DAY) + 1;
    Ok(Solstice {
        day_name: mean_solstice(n).div_euclid(DAY).rem_euclid(60) as u64,
        fraction: mean_solstice(n).rem_euclid(DAY) as u64,
        mansion: mansion_count.rem_euclid(28) as u64,
    })
}

/// The mean place at the midnight of day 0, which follows the mean solstice's day.
fn root(n: i64) -> i128 {
    half_up((DAY - mean_solstice(n).rem_euclid(DAY)) * DAILY_MOTION, DAY)
}

fn run_on_mean_place(n: i64, day: i128) -> i128 {
    root(n) + day * DAILY_MOTION
}

fn perigee(n: i64, day: i128) -> i128 {
    PERIGEE_EPOCH + i128::from(n) * PERIGEE_YEARLY + day * PERIGEE_DAILY
}

/// The sine of an angle within the quarter circle: the entry below and the proportional part.
fn sine(angle: i128) -> i128 {
    let apart = 10 * MINUTE;
    let (below, rest) = ((angle / apart) as usize, angle % apart);
    if rest == 0 {
        return SINE[below];
    }
    SINE[below] + (SINE[below + 1] - SINE[below]) * rest / apart
}

fn cosine(angle: i128) -> i128 {
    sine(QUARTER - angle)
}

/// Steps 1 to 3 of the document.
#[derive(Debug, PartialEq, Eq)]
struct Triangle {
    height: i128,
    base: i128,
    tangent: i128,
}

fn triangle(anomaly: i128) -> Triangle {
    let from_perigee = if anomaly > HALF_CIRCLE { CIRCLE - anomaly } else { anomaly };
    let within_quarter = from_perigee <= QUARTER;
    let angle = if within_quarter { from_perigee } else { HALF_CIRCLE - from_perigee };
    let height = half_up(EPICYCLE_DIFFERENCE * sine(angle), RADIUS);
    let base = half_up(EPICYCLE_DIFFERENCE * cosine(angle), RADIUS);
    let long_side = if within_quarter { RADIUS - base } else { RADIUS + base };
    Triangle { height, base, tangent: half_up(2 * height * RADIUS, long_side) }
}

/// Step 4: the minute whose entry is the last not above the tangent, and the part of that minute.
fn angle_of(tangent: i128) -> Result<i128, Refusal> {
    let last = TANGENT.len() - 1;
    if tangent > TANGENT[last] {
        return Err(Refusal::number(5));
    }
    let minute = TANGENT.partition_point(|&entry| entry <= tangent) - 1;
    let whole = minute as i128 * MINUTE;
    if minute == last {
        return Ok(whole);
    }
    let step = TANGENT[minute + 1] - TANGENT[minute];
    Ok(whole + (tangent - TANGENT[minute]) * MINUTE / step)
}

fn equation_at(anomaly: i128) -> Result<i128, Refusal> {
    let anomaly = anomaly.rem_euclid(CIRCLE);
    let angle = angle_of(triangle(anomaly).tangent)?;
    Ok(if anomaly < HALF_CIRCLE { angle } else { -angle })
}

pub fn equation(anomaly: i64) -> Result<i64, Refusal> {
    Ok(equation_at(i128::from(anomaly))? as i64)
}

pub fn mean_place(n: i64, day: i64) -> Result<u64, Refusal> {
    year_in_range(n)?;
    day_in_range(day)?;
    Ok(run_on_mean_place(n, i128::from(day)).rem_euclid(CIRCLE) as u64)
}

/// The true place, not brought into the circle.
fn run_on_place(n: i64, day: i128) -> Result<i128, Refusal> {
    let mean = run_on_mean_place(n, day);
    Ok(mean + equation_at(mean - perigee(n, day))?)
}

pub fn true_place(n: i64, day: i64) -> Result<u64, Refusal> {
    year_in_range(n)?;
    day_in_range(day)?;
    Ok(run_on_place(n, i128::from(day))?.rem_euclid(CIRCLE) as u64)
}

/// What the walk finds: demand 3's day, the units from its midnight to the mark and to the next midnight,
/// and the midnights visited.
struct Walked {
    day: i128,
    gone: i128,
    step: i128,
    count: i128,
}

fn walk(n: i64, k: u64) -> Result<Walked, Refusal> {
    year_in_range(n)?;
    if k > 23 {
        return Err(Refusal::number(3));
    }
    let mark = 15 * DEGREE * i128::from(k);
    let start = (mark - root(n)).div_euclid(DAILY_MOTION) - 3;
    let mut day = start;
    let mut place = run_on_place(n, day)?;
    assert!(place <= mark, "year {n}, term {k}: the start is past the mark");
    loop {
        let next = run_on_place(n, day + 1)?;
        if next > mark {
            // Midnights visited from the start to the first one past the mark, both included.
            let count = day + 1 - start + 1;
            assert!(count <= 8, "year {n}, term {k}: the walk runs out");
            return Ok(Walked { day, gone: mark - place, step: next - place, count });
        }
        day += 1;
        place = next;
    }
}

/// The term as the almanac has it (request K2): half a minute or more rounds up, and where that gives
/// 1,440 it is minute 0 of the next day.
pub fn term(n: i64, k: u64) -> Result<Term, Refusal> {
    let Walked { day, gone, step, count } = walk(n, k)?;
    let minute = half_up(1_440 * gone, step);
    let (day, minute) = if minute == 1_440 { (day + 1, 0) } else { (day, minute) };
    Ok(Term { day: day as i64, minute: minute as u64, count: count as u64 })
}

/// Demand 3's day and document 01's minute, cut off.
pub fn crossing(n: i64, k: u64) -> Result<Moment, Refusal> {
    let Walked { day, gone, step, .. } = walk(n, k)?;
    Ok(Moment { day: day as i64, minute: (1_440 * gone / step) as u64 })
}

/// Clock seconds for a longitude in seconds of arc: fifteen make one, half or more up on the size.
fn clock_seconds(longitude: i128) -> i128 {
    half_up(longitude.abs(), 15) * longitude.signum()
}

pub fn local_time(day: i64, minute: u64, longitude: i64) -> Result<Moment, Refusal> {
    day_in_range(day)?;
    if minute > 1_439 {
        return Err(Refusal::number(2));
    }
    if i128::from(longitude).abs() > 648_000 {
        return Err(Refusal::number(4));
    }
    let here = (i128::from(day) * 1_440 + i128::from(minute)) * 60;
    let minutes_there = (here + clock_seconds(i128::from(longitude))).div_euclid(60);
    Ok(Moment {
        day: minutes_there.div_euclid(1_440) as i64,
        minute: minutes_there.rem_euclid(1_440) as u64,
    })
}

#[cfg(test)]
mod tests {
    //! The figures of document 01, "Proved and compared", and of its solstice program.
    use super::*;

    fn equation_at_degrees(degrees: i128) -> i64 {
        equation((degrees * DEGREE) as i64).unwrap()
    }

    /// Day name, hour, minute and mansion, as the solstice program prints them.
    fn solstice_line(n: i64) -> (u64, u64, u64, u64) {
        let Solstice { day_name, fraction, mansion } = year(n).unwrap();
        let minutes = fraction * 1_440 / DAY as u64;
        (day_name, minutes / 60, minutes % 60, mansion)
    }

    #[test]
    fn epoch_year() {
        assert_eq!(year(0).unwrap().fraction, 656_374_926);
        assert_eq!(root(0), 73_157_720_187);
    }

    #[test]
    fn backward_years() {
        assert_eq!(year(-1).unwrap().day_name, 2);
        assert_eq!(year(-1).unwrap().fraction, 414_187_426);
        assert_eq!(year(-676).unwrap().day_name, 3);
    }

    #[test]
    fn equation_at_perigee_and_apogee() {
        assert_eq!(equation_at_degrees(0), 0);
        assert_eq!(equation_at_degrees(180), 0);
    }

    #[test]
    fn equation_at_30_and_330_degrees() {
        let expected = Triangle { height: 89_604, base: 155_199, tangent: 182_033 };
        assert_eq!(triangle(30 * DEGREE), expected);
        assert_eq!(equation_at_degrees(30), 225_257_319_587);
        assert_eq!(equation_at_degrees(330), -225_257_319_587);
    }

    #[test]
    fn equation_at_90_and_270_degrees() {
        assert_eq!(triangle(90 * DEGREE).tangent, 358_416);
        assert_eq!(equation_at_degrees(90), 443_382_080_329);
        assert_eq!(equation_at_degrees(270), -443_382_080_329);
    }

    #[test]
    fn equation_at_140_degrees() {
        assert_eq!(triangle(140 * DEGREE).tangent, 227_266);
        assert_eq!(equation_at_degrees(140), 281_213_195_876);
    }

    #[test]
    fn local_times() {
        assert_eq!(local_time(10, 1_435, 13_284), Ok(Moment { day: 11, minute: 9 }));
        assert_eq!(local_time(10, 0, -12_795), Ok(Moment { day: 9, minute: 1_425 }));
    }

    /// Document 004's printed equations; a sixtieth of a second of arc is a third.
    #[test]
    fn equations_of_004_within_three_thirds() {
        let third = SECOND / 60;
        let printed = |degrees, minutes, seconds, thirds| {
            degrees * DEGREE + minutes * MINUTE + seconds * SECOND + thirds * third
        };
        for (at, equation) in
            [(30, printed(1, 2, 34, 18)), (90, printed(2, 3, 9, 40)), (140, printed(1, 18, 6, 53))]
        {
            let apart = i128::from(equation_at_degrees(at)) - equation;
            assert!(apart.abs() <= 3 * third, "at {at}°: {apart} units apart");
        }
    }

    /// Document 003's solstices, days and minutes.
    #[test]
    fn solstices_of_003() {
        for (n, day, hour, minute) in [(-600, 42, 8, 15), (-633, 49, 8, 26), (-585, 0, 23, 26)] {
            let (day_name, hour_here, minute_here, _) = solstice_line(n);
            assert_eq!((day_name, hour_here, minute_here), (day, hour, minute), "year {n}");
        }
    }

    #[test]
    fn solstice_lines() {
        assert_eq!(solstice_line(-676), (3, 22, 30, 6));
        assert_eq!(solstice_line(-1), (2, 9, 56, 5));
        assert_eq!(solstice_line(0), (7, 15, 45, 6));
        assert_eq!(solstice_line(1), (12, 21, 33, 7));
        assert_eq!(year(2_001), Err(Refusal::number(1)));
    }

    #[test]
    fn limits() {
        assert!(year(2_000).is_ok() && year(-2_000).is_ok());
        assert_eq!(year(-2_001), Err(Refusal::number(1)));
        for day in [-4, 370] {
            assert!(true_place(2_000, day).is_ok());
        }
        for day in [-5, 371] {
            assert_eq!(true_place(2_000, day), Err(Refusal::number(2)));
            assert_eq!(mean_place(2_001, day), Err(Refusal::number(1)));
        }
        assert_eq!(term(0, 24), Err(Refusal::number(3)));
        assert_eq!(local_time(0, 0, 648_001), Err(Refusal::number(4)));
        assert_eq!(local_time(371, 0, 648_001), Err(Refusal::number(2)));
        assert_eq!(local_time(-4, 0, -648_000), Ok(Moment { day: -5, minute: 720 }));
        assert_eq!(local_time(370, 1_439, 648_000), Ok(Moment { day: 371, minute: 719 }));
    }

    /// Request K2: the print is the crossing rounded, so the same minute or the next, and a day later only
    /// at minute 0.
    #[test]
    fn printed_and_crossed() {
        let printed = |n, k| term(n, k).map(|Term { day, minute, .. }| Moment { day, minute });
        let mut carried = 0;
        for n in -2_000..=2_000 {
            for k in 0..24 {
                let (print, crossed) = (printed(n, k).unwrap(), crossing(n, k).unwrap());
                assert!(print.minute <= 1_439 && crossed.minute <= 1_439);
                let later = (print.day - crossed.day) * 1_440 + print.minute as i64;
                assert!([0, 1].contains(&(later - crossed.minute as i64)), "{n}, term {k}");
                if print.day != crossed.day {
                    assert_eq!((print.day, print.minute), (crossed.day + 1, 0), "{n}, term {k}");
                    carried += 1;
                }
            }
        }
        assert_eq!(carried, 26);
        assert_eq!(printed(-255, 0), Ok(Moment { day: 0, minute: 0 }));
        assert_eq!(crossing(-255, 0), Ok(Moment { day: -1, minute: 1_439 }));
        for (n, k) in [(0, 24), (2_001, 24), (-2_001, 0)] {
            assert_eq!(printed(n, k).unwrap_err(), crossing(n, k).unwrap_err());
        }
        assert_eq!(crossing(0, 24), Err(Refusal::number(3)));
        assert_eq!(crossing(2_001, 24), Err(Refusal::number(1)));
    }

    /// The document's other promise of the run-on places, on every seventh year.
    #[test]
    fn run_on_places_rise() {
        for n in (-2_000..=2_000).step_by(7) {
            let places: Vec<i128> = (-4..=370).map(|day| run_on_place(n, day).unwrap()).collect();
            assert!(places.windows(2).all(|pair| pair[0] < pair[1]), "year {n}");
        }
    }
}
