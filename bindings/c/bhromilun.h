/* The calls of libbhromilun.a, which `bash bindings/build` writes for each target that it knows.

   Each call answers 0, or the number of its refusal; bhromilun_verify_book has one answer more, which is
   the number of no refusal. Below, "stores" says of every pointer on which answers its place is stored;
   on every other answer that place stays as it was. An array or a buffer is stored whole, as far as the
   call fills it, or not at all.

   The caller sees to it that
   - no pointer is null, that of a buffer of length 0 neither, and each is aligned for its type;
   - an array has 24 places, and a buffer as many bytes as its length says;
   - no place that a call may store overlaps another that it is given.
   Two books that are given may be the same bytes, or overlap: a call stores nothing in either.
   Numbers may have any value: one that is out of range is refused. Lengths and places in a book have 64
   bits on every target, also where a pointer has 32.

   The library keeps nothing between calls, so that any number of threads may call it at once.

   N is the number of years from 1684, -2,000 to 2,000. Day 0 is the day whose midnight follows the mean
   winter solstice's day. Minutes are those of the day, 0 to 1,439. Angles are in units, 60,000,000 to
   one second of arc. A year of a term book takes 149 bytes.

   Refusals, in the order in which a call gives them, save that a book is gone over record by record and
   each is refused 8, 7, 10, 9, and that of two books the first is gone over whole before the second:
    1  an N outside -2,000 to 2,000
    2  a day outside -4 to 370, or a minute above 1,439
    3  a term above 23
    4  a longitude beyond 648,000 seconds of arc either way
    6  a buffer under 149 bytes
    7  the book ends inside a record
    8  a kind of record that is neither 01 nor 02
    9  a field out of its range, read from a book or given to be written
   10  a record out of turn, the book ends inside a year, or a single year is read from no bytes
   12  a year absent from a sound book, or from both where there are two
   With 7 to 10 from a book comes the byte where the record at fault starts; where the book ends between
   records inside a year, that is its length. Where there are two books, which of them comes too. */

#ifndef BHROMILUN_H
#define BHROMILUN_H

#include <stdint.h>

#ifdef __cplusplus
extern "C" {
#endif

/* The mean winter solstice of a year: its day name (0 to 59, from jiazi), the fraction of its day in
   thousand-millionths, and the duty mansion (0 to 27, from jiao). Refuses 1.
   Stores: all three on 0. */
uint64_t bhromilun_year(int64_t n, uint64_t *day_name, uint64_t *fraction, uint64_t *mansion);

/* The equation of centre in units, at any anomaly in units; it is brought into the circle first.
   Refuses nothing: no anomaly gives a tangent above the table's end, which would be 5.
   Stores: equation on 0. */
uint64_t bhromilun_equation(int64_t anomaly, int64_t *equation);

/* The mean sun at the midnight of a day (-4 to 370), in units within the circle. Refuses 1, 2.
   Stores: place on 0. */
uint64_t bhromilun_mean_place(int64_t n, int64_t day, uint64_t *place);

/* The true sun at the midnight of a day (-4 to 370), in units within the circle. Refuses 1, 2.
   Stores: place on 0. */
uint64_t bhromilun_true_place(int64_t n, int64_t day, uint64_t *place);

/* Day and minute of term k (0 to 23) as the almanac prints them, and the number of midnights visited to
   find them. Half a minute or more rounds up, and what would be minute 1,440 is minute 0 of the next day.
   Refuses 1, 3.
   Stores: all three on 0. */
uint64_t bhromilun_term(int64_t n, uint64_t k, int64_t *day, uint64_t *minute, uint64_t *count);

/* The sun's crossing of the mark of term k (0 to 23): the day with the mark between its midnight and the
   next, and the minute cut off. What bhromilun_term prints may be a minute later, and so on the next day.
   Refuses 1, 3.
   Stores: both on 0. */
uint64_t bhromilun_crossing(int64_t n, uint64_t k, int64_t *day, uint64_t *minute);

/* The year call: day, minute and count of each of the 24 terms as they are printed, term 0 first. It is
   quicker than 24 calls of bhromilun_term, which lays out its tables each time. Refuses 1.
   Stores: all three arrays on 0. */
uint64_t bhromilun_terms(int64_t n, int64_t days[24], uint64_t minutes[24], uint64_t counts[24]);

/* The day and minute at a place so many seconds of arc east of the capital (west is negative). The day
   may come out as -5 or 371. Refuses 2, 4.
   Stores: both on 0. */
uint64_t bhromilun_local_time(int64_t day, uint64_t minute, int64_t longitude,
                              int64_t *day_there, uint64_t *minute_there);

/* Works out a year and fills the first 149 bytes of the buffer with its part of a term book.
   Refuses 1, 6.
   Stores: the buffer's first 149 bytes on 0, and never a later one. */
uint64_t bhromilun_write_year(int64_t n, uint8_t *buffer, uint64_t length);

/* Checks a whole book; an empty one is sound. Refuses 7, 8, 9, 10.
   Stores: byte on every answer; on 0 it is the book's length, on a refusal the byte at fault. */
uint64_t bhromilun_check_book(const uint8_t *bytes, uint64_t length, uint64_t *byte);

/* Seeks the year's part of a book: its bytes from start up to, and without, end. Refuses 1; then 7, 8,
   9, 10 for the whole book; then 12.
   Stores: start and end on 0; byte, the byte at fault, on 7, 8, 9 and 10; none on 1 and 12. */
uint64_t bhromilun_seek_year(const uint8_t *bytes, uint64_t length, int64_t n,
                             uint64_t *start, uint64_t *end, uint64_t *byte);

/* Seeks the year's part in two books, a sheet of corrections and the main book: in the corrections if
   they have it, else in the main book. which is 0 for the corrections and 1 for the main book; the part
   is that book's bytes from start up to, and without, end. Both books are checked whole, also where the
   corrections have the year. Refuses 1; then 7, 8, 9, 10 for the corrections; then 7, 8, 9, 10 for the
   main book; then 12 if neither has the year.
   Stores: which, start and end on 0; which and byte, the byte at fault in that book, on 7, 8, 9 and 10;
   none on 1 and 12. */
uint64_t bhromilun_corrected_year(const uint8_t *corrections, uint64_t corrections_length,
                                  const uint8_t *main_book, uint64_t main_length, int64_t n,
                                  uint64_t *which, uint64_t *start, uint64_t *end, uint64_t *byte);

/* Checks a partner's book whole, and then whether it is ours: each year's day name and mansion, and each
   term's day and minute. 0 says that it is: each of its years is, byte for byte, what
   bhromilun_write_year writes. An empty book is ours. Refuses 7, 8, 9, 10, before any comparison;
   BHROMILUN_NOT_OURS says that a record is not ours, and is no refusal: the other calls accept the book.
   Stores: byte on 7, 8, 9 and 10, the byte at fault, and on BHROMILUN_NOT_OURS, the byte where the first
   record starts that is not ours; not on 0. */
#define BHROMILUN_NOT_OURS 100
uint64_t bhromilun_verify_book(const uint8_t *bytes, uint64_t length, uint64_t *byte);

/* Reads the year at the start of the bytes: N, day name, mansion, day and minute of each of the 24
   terms, and in end the byte after the year, where a next one would start. What stands from there on is
   not looked at. Refuses 7, 8, 9, 10; no bytes at all are refused 10 at byte 0.
   That years rise in a book is the whole book's matter: bhromilun_check_book.
   Stores: all but byte on 0; byte, the byte at fault, and nothing else on a refusal. */
uint64_t bhromilun_read_year(const uint8_t *bytes, uint64_t length,
                             int64_t *n, uint64_t *day_name, uint64_t *mansion,
                             int64_t days[24], uint64_t minutes[24], uint64_t *end, uint64_t *byte);

/* Fills the first 149 bytes of the buffer with the year of these values, term 0 first. Refuses 1; then
   6; then 9 for a day name above 59, a mansion above 27, a day outside -4 to 370 or a minute above 1,439.
   Stores: the buffer's first 149 bytes on 0, and never a later one. */
uint64_t bhromilun_write_year_from(int64_t n, uint64_t day_name, uint64_t mansion,
                                   const int64_t days[24], const uint64_t minutes[24],
                                   uint8_t *buffer, uint64_t length);

#ifdef __cplusplus
}
#endif

#endif
