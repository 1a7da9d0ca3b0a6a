/* Prints the 24 terms of the epoch year 1684 with the number of each day's name and the time at the
   capital, a term of another year that is printed a day after the sun's crossing, what the epoch year's
   term book reads as, sound and damaged, which book the year comes from where a sheet of corrections has
   it too, whether each of the two is ours, and what a year out of range is answered.
   ../rust/examples/year.rs prints the same. */

#include <inttypes.h>
#include <stdio.h>
#include <string.h>

#include "bhromilun.h"

int main(void)
{
    const int64_t n = 0;
    uint64_t day_name, fraction, mansion;
    uint64_t refused = bhromilun_year(n, &day_name, &fraction, &mansion);
    if (refused != 0) {
        printf("refused %" PRIu64 "\n", refused);
        return 1;
    }
    printf("year %" PRId64 ": day name %" PRIu64 ", mansion %" PRIu64 "\n", n, day_name, mansion);

    int64_t days[24];
    uint64_t minutes[24], counts[24];
    refused = bhromilun_terms(n, days, minutes, counts);
    if (refused != 0) {
        printf("refused %" PRIu64 "\n", refused);
        return 1;
    }
    for (int k = 0; k < 24; k++) {
        /* Day 0 is the day after the mean solstice's; a term's day is never below -4. */
        uint64_t name = (day_name + 1 + 60 + (uint64_t)days[k]) % 60;
        printf("term %2d: day %3" PRId64 ", name %2" PRIu64 ", %02" PRIu64 ":%02" PRIu64 "\n",
               k, days[k], name, minutes[k] / 60, minutes[k] % 60);
    }

    int64_t day, printed_day;
    uint64_t minute, printed_minute, count;
    refused = bhromilun_crossing(-255, 0, &day, &minute);
    if (refused == 0)
        refused = bhromilun_term(-255, 0, &printed_day, &printed_minute, &count);
    if (refused != 0) {
        printf("refused %" PRIu64 "\n", refused);
        return 1;
    }
    printf("crossing: day %" PRId64 ", minute %" PRIu64 ", printed day %" PRId64 ", minute %" PRIu64 "\n",
           day, minute, printed_day, printed_minute);

    uint8_t book[149];
    int64_t read;
    uint64_t end, byte;
    refused = bhromilun_write_year(n, book, sizeof book);
    if (refused != 0) {
        printf("refused %" PRIu64 "\n", refused);
        return 1;
    }
    refused = bhromilun_read_year(book, sizeof book, &read, &day_name, &mansion, days, minutes,
                                  &end, &byte);
    if (refused != 0) {
        printf("refused %" PRIu64 " at byte %" PRIu64 "\n", refused, byte);
        return 1;
    }
    printf("book: year %" PRId64 ", term 23 on day %" PRId64 ", %" PRIu64 " bytes after it\n",
           read, days[23], sizeof book - end);

    uint8_t sheet[149];
    uint64_t which, start;
    memcpy(sheet, book, sizeof sheet);
    sheet[10]++; /* term 0 a minute later */
    refused = bhromilun_corrected_year(sheet, sizeof sheet, book, sizeof book, n, &which, &start,
                                       &end, &byte);
    if (refused != 0) {
        printf("refused %" PRIu64 "\n", refused);
        return 1;
    }
    printf("corrected: year %" PRId64 " from %s, %" PRIu64 " bytes\n",
           n, which == 0 ? "the corrections" : "the main book", end - start);

    if (bhromilun_verify_book(book, sizeof book, &byte) == 0)
        printf("verified: the book is ours\n");
    if (bhromilun_verify_book(sheet, sizeof sheet, &byte) == BHROMILUN_NOT_OURS)
        printf("verified: the corrections are not ours at byte %" PRIu64 "\n", byte);

    book[7] = 2; /* term 0 on day 511 */
    refused = bhromilun_read_year(book, sizeof book, &read, &day_name, &mansion, days, minutes,
                                  &end, &byte);
    printf("damaged book: refused %" PRIu64 " at byte %" PRIu64 "\n", refused, byte);

    refused = bhromilun_year(2001, &day_name, &fraction, &mansion);
    printf("year 2001: refused %" PRIu64 "\n", refused);
    return 0;
}
