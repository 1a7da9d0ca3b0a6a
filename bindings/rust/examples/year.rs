//! Prints the 24 terms of the epoch year 1684 with the number of each day's name and the time at the
//! capital, a term of another year that is printed a day after the sun's crossing, what the epoch year's
//! term book reads as, sound and damaged, which book the year comes from where a sheet of corrections has
//! it too, whether each of the two is ours, and what a year out of range is answered.
//! ../../c/example.c prints the same.

use bhromilun::Refusal;

fn main() -> Result<(), Refusal> {
    let n = 0;
    let solstice = bhromilun::year(n)?;
    println!("year {n}: day name {}, mansion {}", solstice.day_name, solstice.mansion);
    for (k, term) in bhromilun::terms(n)?.iter().enumerate() {
        // Day 0 is the day after the mean solstice's.
        let day_name = (solstice.day_name as i64 + 1 + term.day).rem_euclid(60);
        let (hour, minute) = (term.minute / 60, term.minute % 60);
        println!("term {k:2}: day {:3}, name {day_name:2}, {hour:02}:{minute:02}", term.day);
    }
    let (crossing, term) = (bhromilun::crossing(-255, 0)?, bhromilun::term(-255, 0)?);
    print!("crossing: day {}, minute {}, ", crossing.day, crossing.minute);
    println!("printed day {}, minute {}", term.day, term.minute);
    let mut book = [0; 149];
    bhromilun::write_year(n, &mut book)?;
    let (year, rest) = bhromilun::read_year(&book)?;
    let day = year.terms[23].day;
    println!("book: year {}, term 23 on day {day}, {} bytes after it", year.n, rest.len());
    let mut sheet = book;
    sheet[10] += 1; // term 0 a minute later
    let corrected =
        bhromilun::corrected_year(&sheet, &book, n).map_err(|refused| refused.refusal)?;
    println!("corrected: year {n} from {}, {} bytes", corrected.which, corrected.part.len());
    println!("verified: the book is {}", bhromilun::verify_book(&book)?);
    println!("verified: the corrections are {}", bhromilun::verify_book(&sheet)?);
    book[7] = 2; // term 0 on day 511
    if let Err(Refusal { number, byte: Some(byte) }) = bhromilun::read_year(&book) {
        println!("damaged book: refused {number} at byte {byte}");
    }
    if let Err(refusal) = bhromilun::year(2_001) {
        println!("year 2001: refused {}", refusal.number);
    }
    Ok(())
}
