// The solstice program in plain Rust, buffered: what `crates/solstice/out/solstice` is timed against. It shares nothing with the Rattle sources.
use std::io::{self, BufRead, BufWriter, Write};

const DAY: i64 = 1_000_000_000;
// The year is 365.2421875 days. The epoch's solstice stands 7.656374926 days after jiazi, and that day's mansion is 6.
const YEAR: i64 = 365_242_187_500;
const SOLSTICE: i64 = 7_656_374_926;
const MANSION: i64 = 6;

fn asked(line: &[u8]) -> Result<i64, u8> {
    let (minus, digits) = match line.strip_prefix(b"-") {
        Some(rest) => (true, rest),
        None => (false, line),
    };
    if digits.is_empty() || digits.len() > 4 || !digits.iter().all(u8::is_ascii_digit) {
        return Err(11);
    }
    let size = digits.iter().fold(0, |sum, d| sum * 10 + i64::from(d - b'0'));
    if size > 2_000 {
        return Err(1);
    }
    Ok(if minus { -size } else { size })
}

fn main() -> io::Result<()> {
    let mut input = io::stdin().lock();
    let mut out = BufWriter::new(io::stdout().lock());
    let mut line = Vec::new();
    while input.read_until(b'\n', &mut line)? > 0 {
        if line.last() == Some(&b'\n') {
            line.pop();
        }
        match asked(&line) {
            Ok(n) => {
                let at = SOLSTICE + n * YEAR;
                let days = at.div_euclid(DAY);
                let minutes = at.rem_euclid(DAY) * 1_440 / DAY;
                let mansion = (days - SOLSTICE / DAY + MANSION).rem_euclid(28);
                writeln!(out, "{} {} {:02}:{:02} {}", n, days.rem_euclid(60), minutes / 60, minutes % 60, mansion)?;
            }
            Err(number) => writeln!(out, "refused {number}")?,
        }
        line.clear();
    }
    out.flush()
}
