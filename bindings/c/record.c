/* The record from C: each answer, and every byte of all that is lent, beside what it must be. */
#include <math.h>
#include <stdint.h>

/* What the calls write into, and what must stand there afterwards. */
struct lent {
    uint8_t text[1100];
    uint64_t written;
    uint32_t format;
    uint64_t rows;
    double wcs[7];
    uint32_t order;
    double a[4], b[4], sums[4];
    uint64_t line;
};

#include "lent.h"

static const double wcs[] = {0, 0, 1, 0, 0, 1}, bad[] = {0, 0, 1, NAN, 0, 1};
static const double a[] = {0.5, 0, 1e-20, 0, 0, 0, 0}, none[7], sums[] = {0.5, 0, 0};

/* the record of six rows, whose a_2_0 was solved as 0.5 and all else is dropped, in each format */
#define RECORD(format, a_2_0)                                                                      \
    "format=" format "\n"                                                                          \
    "rows=6\n"                                                                                     \
    "crpix1=0000000000000000\n"                                                                    \
    "crpix2=0000000000000000\n"                                                                    \
    "cd1_1=3ff0000000000000\n"                                                                     \
    "cd1_2=0000000000000000\n"                                                                     \
    "cd2_1=0000000000000000\n"                                                                     \
    "cd2_2=3ff0000000000000\n"                                                                     \
    "order=2\n"                                                                                    \
    "a_2_0=" a_2_0 "\n"                                                                            \
    "linear_rms=3fe0000000000000\n"                                                                \
    "rms=0000000000000000\n"                                                                       \
    "wrms=0000000000000000\n"

static const char record[] = RECORD("2", "bfe0000000000000");
static const char old[] = RECORD("1", "3fe0000000000000");

enum { SIZE = sizeof record - 1 };

#define OUT(n) lent.text, n, &lent.written
#define INTO(w, p, q, s)                                                                           \
    &lent.format, &lent.rows, lent.wcs, w, &lent.order, lent.a, p, lent.b, q, lent.sums, s,        \
            &lent.line
#define TEXT(t) (const uint8_t *)(t)

static void written(size_t room)
{
    lend();
    memcpy(due.text, record, SIZE);
    due.written = SIZE;
    CALL(0, write_record, 6, wcs, 6, 2, a, 3, none, 3, sums, 3, OUT(room));
}

/* The solution of a record, into lists of their length or longer ones. It is written back in
   format 2. */
static void read_into(uint32_t format, const char *text, size_t w, size_t terms, size_t s)
{
    lend();
    due.format = format;
    due.rows = 6;
    memcpy(due.wcs, wcs, sizeof wcs);
    due.order = 2;
    due.a[0] = 0.5, due.a[1] = due.a[2] = 0;
    due.b[0] = due.b[1] = due.b[2] = 0;
    memcpy(due.sums, sums, sizeof sums);
    CALL(0, read_record, TEXT(text), SIZE, INTO(w, terms, terms, s));
    memcpy(due.text, record, SIZE);
    due.written = SIZE;
    CALL(0, write_record, lent.rows, lent.wcs, 6, lent.order, lent.a, 3, lent.b, 3, lent.sums, 3,
            OUT(1100));
}

/* A text that is wrong at a line: nothing else than the line's number changes, room or not. */
static void wrong_at(uint64_t line, const char *text, size_t size)
{
    lend();
    due.line = line;
    CALL(10, read_record, TEXT(text), size, INTO(6, 3, 3, 3));
    CALL(10, read_record, TEXT(text), size, INTO(0, 0, 0, 0));
}

/* A record with one byte turned. */
static void turned(uint64_t line, const char *of, size_t at, char byte)
{
    char text[sizeof record];
    memcpy(text, of, sizeof record);
    text[at] = byte;
    wrong_at(line, text, SIZE);
}

/* Where a value starts; both formats have it at the same place. */
static size_t value(const char *name)
{
    return (size_t)(strstr(record, name) - record) + strlen(name);
}

/* What is wrong in a record of one format is wrong in the other. */
static void refusals(const char *of)
{
    wrong_at(13, of, SIZE - 1);                 /* no last newline */
    wrong_at(14, of, sizeof record);            /* a byte after the last line */
    turned(1, of, value("format="), '0');       /* other formats */
    turned(1, of, value("format="), '3');
    turned(5, of, value("cd1_1=") + 1, 'F');    /* an uppercase digit */
    turned(9, of, value("order="), '6');        /* an order above 5 */
    turned(10, of, value("a_2_0="), '0');       /* a coefficient that is dropped, of either sign */
    turned(10, of, value("a_2_0="), '8');
    turned(11, of, value("a_2_0=") + 17, 'a');  /* a line that is none */
}

static void reads(void)
{
    read_into(2, record, 6, 3, 3);
    read_into(2, record, 7, 4, 4);
    read_into(1, old, 6, 3, 3);
    read_into(1, old, 7, 4, 4);
    REFUSED(7, read_record, TEXT(record), SIZE, INTO(5, 3, 3, 3));
    REFUSED(7, read_record, TEXT(old), SIZE, INTO(5, 3, 3, 3));
    REFUSED(7, read_record, TEXT(record), SIZE, INTO(6, 2, 3, 3));
    REFUSED(7, read_record, TEXT(record), SIZE, INTO(6, 3, 2, 3));
    REFUSED(7, read_record, TEXT(record), SIZE, INTO(6, 3, 3, 2));
    wrong_at(1, NULL, 0);
    refusals(record);
    refusals(old);
}

int main(void)
{
    reads();
    written(1100);
    written(SIZE); /* exactly full */
    REFUSED(7, write_record, 6, wcs, 6, 2, a, 3, none, 3, sums, 3, OUT(SIZE - 1));
    REFUSED(1, write_record, 101, wcs, 5, 2, a, 3, none, 3, sums, 3, OUT(1100));
    REFUSED(2, write_record, 6, wcs, 5, 2, a, 3, none, 3, sums, 3, OUT(1100));
    REFUSED(2, write_record, 6, wcs, 6, 2, a, 3, none, 3, sums, 2, OUT(1100));
    REFUSED(2, write_record, 6, wcs, 6, 2, a, 3, none, 4, sums, 3, OUT(1100));
    REFUSED(3, write_record, 6, bad, 6, 2, a, 3, none, 3, sums, 3, OUT(0));
    REFUSED(5, write_record, 6, wcs, 6, 6, a, 3, none, 3, sums, 3, OUT(0));
    return verdict();
}
