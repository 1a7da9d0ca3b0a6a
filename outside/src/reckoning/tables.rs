//! The sine and tangent tables, worked out by the compiler from the series of the arctangent and the
//! sine in fixed point. No entry is copied from anywhere; one too near a half would stop the build.

/// One, in fixed point: 18 decimals, so that a product of two numbers still fits 128 bits.
const ONE: i128 = 1_000_000_000_000_000_000;

/// No value here is wrong by more than this, in the last decimal. The series have fewer than 20 parts,
/// each cut off twice; π takes sixteen times such an error, and a tangent divides two of them.
const ERROR: i128 = 10_000;

pub const RADIUS: i128 = 10_000_000;

pub const SINES: usize = 541;
pub const TANGENTS: usize = 131;

/// One entry for each 10′ from 0° to 90°.
pub static SINE: [i128; SINES] = sines();

/// One entry for each 1′ from 0′ to 130′.
pub static TANGENT: [i128; TANGENTS] = tangents();

/// The arctangent of 1/n: 1/n − 1/3n³ + 1/5n⁵ − …
const fn arctangent_of_part(n: i128) -> i128 {
    let mut power = ONE / n;
    let mut odd = 1;
    let mut sum = 0;
    while power != 0 {
        sum += if odd % 4 == 1 { power / odd } else { -(power / odd) };
        power /= n * n;
        odd += 2;
    }
    sum
}

/// Machin's: a quarter of π is four arctangents of 1/5 less one of 1/239.
const PI: i128 = 4 * (4 * arctangent_of_part(5) - arctangent_of_part(239));

/// The sum of x^first/first!, and on by steps of two with alternating signs, from its first part.
const fn alternating(angle: i128, first_part: i128, first: i128) -> i128 {
    let square = angle * angle / ONE;
    let mut part = first_part;
    let mut power = first;
    let mut sum = 0;
    while part != 0 {
        sum += part;
        part = -(part * square / ONE / ((power + 1) * (power + 2)));
        power += 2;
    }
    sum
}

const fn sine(angle: i128) -> i128 {
    alternating(angle, angle, 1)
}

const fn cosine(angle: i128) -> i128 {
    alternating(angle, ONE, 0)
}

/// The nearest whole number to radius times a value, certain only away from a half.
const fn nearest(value: i128) -> i128 {
    let unit = ONE / RADIUS;
    let rest = value % unit;
    assert!(rest < unit / 2 - ERROR || rest > unit / 2 + ERROR);
    (value + unit / 2) / unit
}

pub const fn sines() -> [i128; SINES] {
    let mut table = [0; SINES];
    let mut k = 0;
    while k < SINES {
        table[k] = nearest(sine(PI * k as i128 / 1080));
        k += 1;
    }
    table
}

pub const fn tangents() -> [i128; TANGENTS] {
    let mut table = [0; TANGENTS];
    let mut minute = 0;
    while minute < TANGENTS {
        let angle = PI * minute as i128 / 10_800;
        table[minute] = nearest(sine(angle) * ONE / cosine(angle));
        minute += 1;
    }
    table
}

#[cfg(test)]
mod tests {
    use super::*;

    #[test]
    fn pi_to_fifteen_decimals() {
        let known = std::f64::consts::PI;
        assert!((PI as f64 / ONE as f64 - known).abs() < 1e-15);
    }

    #[test]
    fn sines_known_by_geometry() {
        assert_eq!(SINE[0], 0);
        assert_eq!(SINE[180], 5_000_000);
        assert_eq!(SINE[270], 7_071_068);
        assert_eq!(SINE[360], 8_660_254);
        assert_eq!(SINE[540], RADIUS);
    }

    #[test]
    fn sine_steps() {
        let steps: Vec<i128> = SINE.windows(2).map(|pair| pair[1] - pair[0]).collect();
        assert_eq!(steps.iter().min(), Some(&42));
        assert_eq!(steps.iter().max(), Some(&29_089));
        for pair in steps.windows(2) {
            assert!((-86..=1).contains(&(pair[1] - pair[0])));
        }
    }

    #[test]
    fn sine_mirrors() {
        for k in 0..SINES {
            let squares = SINE[k].pow(2) + SINE[540 - k].pow(2);
            assert!((squares - RADIUS.pow(2)).abs() <= 14_142_136);
        }
    }

    #[test]
    fn tangent_steps() {
        for pair in TANGENT.windows(2) {
            assert!((2_908..=2_914).contains(&(pair[1] - pair[0])));
        }
    }
}
