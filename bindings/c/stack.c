/* How much stack each call takes: it runs on a stack of its own, full of marks, and the marks that are gone are counted. Prints the
   deepest, and fails where one takes more than the documents say, or is refused: a refused call goes less deep. The year and the term
   are those that go deepest. */

#define _GNU_SOURCE
#include <inttypes.h>
#include <stdio.h>
#include <string.h>
#include <ucontext.h>

#include "bhromilun.h"

enum { MOST = 9500, YEARS = 4001, PART = 149, ROOM = 1 << 18, MARK = 0xA7 };

static uint8_t stack[ROOM] __attribute__((aligned(16)));
static ucontext_t here, there;

static uint8_t book[YEARS * PART], buffer[PART];
static int64_t day, days[24];
static uint64_t a, b, c, d, minutes[24], counts[24], refused;

static void nothing(void) {}
static void year(void) { refused |= bhromilun_year(0, &a, &b, &c); }
static void equation(void) { refused |= bhromilun_equation(INT64_C(12345678901234), &day); }
static void mean_place(void) { refused |= bhromilun_mean_place(0, 5, &a); }
static void true_place(void) { refused |= bhromilun_true_place(0, 5, &a); }
static void term(void) { refused |= bhromilun_term(-2000, 17, &day, &a, &b); }
static void crossing(void) { refused |= bhromilun_crossing(-2000, 17, &day, &a); }
static void terms(void) { refused |= bhromilun_terms(-2000, days, minutes, counts); }
static void local_time(void) { refused |= bhromilun_local_time(10, 1435, 13284, &day, &a); }
static void write_year(void) { refused |= bhromilun_write_year(-2000, buffer, PART); }
static void check_book(void) { refused |= bhromilun_check_book(book, sizeof book, &a); }
static void seek_year(void) { refused |= bhromilun_seek_year(book, sizeof book, 1999, &a, &b, &c); }
static void corrected_year(void) { refused |= bhromilun_corrected_year(book, PART, book, sizeof book, 1999, &a, &b, &c, &d); }
static void verify_book(void) { refused |= bhromilun_verify_book(book, 10 * PART, &a); }
static void read_year(void) { refused |= bhromilun_read_year(book, PART, &day, &a, &b, days, minutes, &c, &d); }
static void write_year_from(void) { refused |= bhromilun_write_year_from(0, 7, 6, days, minutes, buffer, PART); }

static const struct {
    const char *name;
    void (*call)(void);
} calls[] = {
    {"year", year},           {"equation", equation},     {"mean_place", mean_place},         {"true_place", true_place},
    {"term", term},           {"crossing", crossing},     {"terms", terms},                   {"local_time", local_time},
    {"write_year", write_year}, {"check_book", check_book}, {"seek_year", seek_year},         {"corrected_year", corrected_year},
    {"verify_book", verify_book}, {"read_year", read_year}, {"write_year_from", write_year_from},
};

/* The bytes that a call has written, from the deepest on. */
static size_t taken(void (*call)(void))
{
    memset(stack, MARK, sizeof stack);
    getcontext(&there);
    there.uc_stack.ss_sp = stack;
    there.uc_stack.ss_size = sizeof stack;
    there.uc_link = &here;
    makecontext(&there, call, 0);
    swapcontext(&here, &there);
    size_t left = 0;
    while (left < sizeof stack && stack[left] == MARK)
        left++;
    return sizeof stack - left;
}

int main(void)
{
    for (int64_t n = 0; n < YEARS; n++)
        refused |= bhromilun_write_year(n - 2000, book + n * PART, PART);
    size_t frame = taken(nothing), most = 0, deepest = 0;
    for (size_t i = 0; i < sizeof calls / sizeof *calls; i++) {
        size_t bytes = taken(calls[i].call) - frame;
        if (bytes > most) {
            most = bytes;
            deepest = i;
        }
    }
    printf("The deepest stack is that of %s, %zu bytes.\n", calls[deepest].name, most);
    if (refused != 0) {
        fprintf(stderr, "stack: a call was refused\n");
        return 1;
    }
    if (most > MOST) {
        fprintf(stderr, "stack: more than %d bytes\n", MOST);
        return 1;
    }
    return 0;
}
