/* Half of the fuzzer's changes know what a record is: left to its own, it would hardly ever make a text
   that is accepted. They make a new record of either format, or change a digit, a float, the format, a
   count or whole lines. */
#include "draw.h"

#include <ctype.h>
#include <inttypes.h>
#include <math.h>
#include <stdarg.h>
#include <stdio.h>
#include <string.h>

size_t LLVMFuzzerMutate(uint8_t *text, size_t size, size_t most);
size_t LLVMFuzzerCustomMutator(uint8_t *text, size_t size, size_t most, unsigned int seed);

enum { LONGEST = 4096, LINES = 128 };

#define TERM_LINE "%c_%u_%u=%016" PRIx64 "\n"

/* A line with its newline; the one that is new stands in `fresh`. */
struct line { const char *at; size_t size; };

static char fresh[64];

__attribute__((format(printf, 1, 2)))
static struct line fresh_line(const char *form, ...)
{
    va_list words;
    va_start(words, form);
    size_t size = (size_t)vsnprintf(fresh, sizeof fresh, form, words);
    va_end(words);
    return (struct line){fresh, size < sizeof fresh ? size : sizeof fresh - 1};
}

/* The text that is being made; what does not fit is left out. */
static struct { char bytes[LONGEST]; size_t size; } made;

static void put(struct line line)
{
    size_t room = LONGEST - made.size, size = line.size < room ? line.size : room;
    memcpy(made.bytes + made.size, line.at, size);
    made.size += size;
}

/* ---- numbers */

/* What a line may hold: |x| up to 1,048,576; a finite number; a coefficient that is not dropped; any
   number, and of the NaNs the one that is written. */
enum kind { POSITION, FINITE, COEFFICIENT, ANY };

static const uint64_t special[] = {
    0x0000000000000000, 0x8000000000000000, /* 0 and -0 */
    0x0000000000000001, 0x000fffffffffffff, 0x0010000000000000, 0x7fefffffffffffff, 0xffefffffffffffff,
    0x3bc79ca10c924222, 0x3bc79ca10c924223, 0x3bc79ca10c924224, /* 1e-20 and its neighbours */
    0xbbc79ca10c924222, 0xbbc79ca10c924223, 0xbbc79ca10c924224,
    0x412fffffffffffff, 0x4130000000000000, 0x4130000000000001, /* 1,048,576 and its neighbours */
    0xc12fffffffffffff, 0xc130000000000000, 0xc130000000000001,
    0x7ff0000000000000, 0xfff0000000000000, /* the infinities, and then NaNs */
    0x7ff8000000000000, 0xfff8000000000000, 0x7ff8000000000001, 0x7ff0000000000001, 0xffffffffffffffff,
    0x3ff0000000000000, 0xbfe0000000000000,
};

static int fits(enum kind kind, uint64_t bits)
{
    double x;
    memcpy(&x, &bits, sizeof x);
    switch (kind) {
    case POSITION: return fabs(x) <= 1048576.0;
    case FINITE: return isfinite(x);
    case COEFFICIENT: return fabs(x) > 1e-20;
    default: return !isnan(x) || bits == 0x7ff8000000000000;
    }
}

static uint64_t draw_bits(enum kind kind, int careful)
{
    for (;;) {
        uint64_t bits = draw(4) == 0 ? draw_word() : special[draw(sizeof special / sizeof *special)];
        if (fits(kind, bits) || (!careful && draw(8) == 0))
            return bits;
    }
}

/* The term of a number in the record's order. */
static void term(size_t number, unsigned *p, unsigned *q)
{
    unsigned degree = 2;
    for (; number > degree; degree++)
        number -= degree + 1;
    *q = (unsigned)number;
    *p = degree - *q;
}

static size_t terms_of(size_t order)
{
    return (order + 1) * (order + 2) / 2 - 3;
}

/* ---- a new record */

static void put_float(const char *name, enum kind kind, int careful)
{
    put(fresh_line("%s=%016" PRIx64 "\n", name, draw_bits(kind, careful)));
}

/* The coefficients of an axis, as many of eight as the share says. */
static void put_axis(char letter, size_t order, size_t share, int careful)
{
    for (size_t i = 0; i < terms_of(order); i++) {
        unsigned p, q;
        term(i, &p, &q);
        if (draw(8) < share)
            put(fresh_line(TERM_LINE, letter, p, q, draw_bits(COEFFICIENT, careful)));
    }
}

static void make_record(void)
{
    int careful = draw(4) != 0;
    size_t order = 2 + draw(4), share = draw(9);
    put(fresh_line("format=%zu\n", careful ? 1 + draw(2) : draw(4)));
    put(fresh_line("rows=%zu\n", draw(careful ? 101 : 104)));
    put_float("crpix1", POSITION, careful);
    put_float("crpix2", POSITION, careful);
    put_float("cd1_1", FINITE, careful);
    put_float("cd1_2", FINITE, careful);
    put_float("cd2_1", FINITE, careful);
    put_float("cd2_2", FINITE, careful);
    put(fresh_line("order=%zu\n", order));
    put_axis('a', order, share, careful);
    put_axis('b', order, share, careful);
    put_float("linear_rms", ANY, careful);
    put_float("rms", ANY, careful);
    put_float("wrms", ANY, careful);
}

/* ---- changed lines */

/* The old text and its lines. */
static char old[LONGEST];
static struct line lines[LINES];
static size_t count;

static void split(const uint8_t *text, size_t size)
{
    memcpy(old, text, size);
    count = 0;
    for (size_t at = 0; at < size && count < LINES - 1; at += lines[count++].size) {
        const char *end = memchr(old + at, '\n', size - at);
        lines[count] = (struct line){old + at, end ? (size_t)(end - old) + 1 - at : size - at};
    }
}

static void insert(size_t at, struct line line)
{
    memmove(lines + at + 1, lines + at, (count++ - at) * sizeof *lines);
    lines[at] = line;
}

static void drop(size_t at)
{
    memmove(lines + at, lines + at + 1, (--count - at) * sizeof *lines);
}

static int starts(struct line line, const char *name)
{
    return line.size >= strlen(name) && memcmp(line.at, name, strlen(name)) == 0;
}

/* The first line of this name, or the number of lines. */
static size_t find(const char *name)
{
    size_t at = 0;
    while (at < count && !starts(lines[at], name))
        at++;
    return at;
}

/* A number that rises along the lines of coefficients; -1 for any other line. */
static int rank(struct line line)
{
    const char *s = line.at;
    if (line.size < 6 || (s[0] != 'a' && s[0] != 'b') || s[1] != '_' || s[3] != '_' || s[5] != '=')
        return -1;
    int q = s[4] - '0', degree = s[2] - '0' + q;
    return (s[0] == 'b') * 100 + degree * (degree + 1) / 2 + q;
}

static void change_float(void)
{
    struct line *line = &lines[draw(count)];
    const char *is = memchr(line->at, '=', line->size);
    if (is == NULL || is - line->at > 16)
        return;
    enum kind kind = rank(*line) >= 0 ? COEFFICIENT : starts(*line, "crpix") ? POSITION
            : starts(*line, "cd") ? FINITE : ANY;
    uint64_t bits = draw_bits(kind, draw(4) != 0);
    *line = fresh_line("%.*s=%016" PRIx64 "\n", (int)(is - line->at), line->at, bits);
}

/* One of a list, each as often as another. */
#define ANY_OF(list) ((list)[draw(sizeof (list) / sizeof *(list))])

static void change_count(void)
{
    static const char *const formats[] = {"1", "2", "0", "3", "12", "02", ""};
    static const char *const rows[] = {"0", "6", "9", "10", "99", "100", "101", "007", "", "18446744073709551622"};
    static const char *const orders[] = {"2", "3", "4", "5", "1", "6", "02", ""};
    static const char *const names[] = {"format=", "rows=", "order="};
    size_t which = draw(3), at = find(names[which]);
    const char *value = which == 0 ? ANY_OF(formats) : which == 1 ? ANY_OF(rows) : ANY_OF(orders);
    if (at < count)
        lines[at] = fresh_line("%s%s\n", names[which], value);
}

/* Where the line of a coefficient belongs: after the order and all lines of coefficients before it. */
static size_t place_of(struct line line)
{
    size_t at = find("order=");
    if (at < count)
        at++;
    while (at < count && 0 <= rank(lines[at]) && rank(lines[at]) < rank(line))
        at++;
    return at;
}

/* A coefficient of the record's order, or now and then of any, mostly where it belongs. */
static void put_term(void)
{
    unsigned p, q;
    size_t at = find("order=");
    char order = at < count && lines[at].size > 6 ? lines[at].at[6] : '5';
    int known = '2' <= order && order <= '5' && draw(8) != 0;
    term(draw(terms_of(known ? (size_t)(order - '0') : 5)), &p, &q);
    struct line line = fresh_line(TERM_LINE, "ab"[draw(2)], p, q, draw_bits(COEFFICIENT, draw(8) != 0));
    at = place_of(line);
    if (at < count && rank(lines[at]) == rank(line))
        lines[at] = line;
    else
        insert(draw(8) ? at : draw(count + 1), line);
}

static void swap_lines(void)
{
    size_t i = draw(count), j = draw(2) ? draw(count) : (i + 1) % count;
    struct line line = lines[i];
    lines[i] = lines[j];
    lines[j] = line;
}

static void change_digit(void)
{
    for (int tries = 0; tries < 16; tries++) {
        struct line line = lines[draw(count)];
        char *digit = old + (line.at - old) + draw(line.size);
        if (!isxdigit((unsigned char)*digit))
            continue;
        *digit = "0123456789abcdefABCDEF"[draw(draw(8) ? 16 : 22)];
        return;
    }
}

static void change_line(void)
{
    switch (draw(8)) {
    case 0: swap_lines(); break;
    case 1: insert(draw(count + 1), lines[draw(count)]); break;
    case 2: drop(draw(count)); break;
    case 3: change_count(); break;
    case 4: change_digit(); break;
    case 5: put_term(); break;
    default: change_float();
    }
}

size_t LLVMFuzzerCustomMutator(uint8_t *text, size_t size, size_t most, unsigned int seed)
{
    word = seed;
    if (draw(2) == 0 || size > LONGEST)
        return LLVMFuzzerMutate(text, size, most);
    made.size = 0;
    split(text, size);
    if (count == 0 || draw(8) < 3) {
        make_record();
    } else {
        change_line();
        for (size_t i = 0; i < count; i++)
            put(lines[i]);
    }
    size = made.size < most ? made.size : most;
    memcpy(text, made.bytes, size);
    return size;
}
