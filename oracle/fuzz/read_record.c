/* The reader of records on the texts of a fuzzer. Each text is read twice: with ample room, and with
   room that a hash of the text chooses. All that is lent lies at an end of pages of its own, directly
   beside a page that nobody may touch: in one of the two calls before it, in the other behind it. What
   a call must not change is compared. A record of format 2 that is accepted must be written back to its
   bytes, and one of format 1 as the record of format 2 that reads as the same solution. */
#define _DEFAULT_SOURCE
#include "draw.h"
#include "moorspindle.h"

#include <inttypes.h>
#include <math.h>
#include <stdio.h>
#include <stdlib.h>
#include <string.h>
#include <sys/mman.h>
#include <unistd.h>

enum { LONGEST = 4096, TERMS = 18, ORDERS = 6, FORMATS = 3, MARKED = 512 };
enum { DONE = 0, ROOM = 7, FORM = 10 };

/* What is lent: the reader's list and outputs, and the text that is written back. */
enum { TEXT, FORMAT, ROWS, WCS, ORDER, A, B, SUMS, LINE, BACK, LENT };

static const size_t unit[LENT] = {1, 4, 8, 8, 4, 8, 8, 8, 8, 1};

static struct { uint8_t *start, *end; } pages[LENT];

/* One call of the reader. Before it, MARKED bytes at its end of the pages of each output get the mark. */
struct call {
    int behind;         /* the untouchable page is behind what is lent */
    int null;           /* an empty list is a null pointer */
    uint8_t mark;
    size_t count[LENT]; /* in elements */
    uint32_t answer;
};

static uint64_t texts, accepted[FORMATS], refused, without_room, refused_at[LONGEST + 2];

/* Where a text was refused, and what was accepted, guides the fuzzer as its counters of the code do. */
enum { LINES = 64, KEPT = 2 * TERMS + 1 };
__attribute__((used, section("__libfuzzer_extra_counters")))
static uint8_t seen[LINES + FORMATS * ORDERS * KEPT];

static void must(int holds, const char *what)
{
    if (holds)
        return;
    fprintf(stderr, "WRONG: %s\n", what);
    abort();
}

/* ---- choices: the same for the same text */

static void choose_by(const uint8_t *text, size_t size)
{
    word = UINT64_C(0xcbf29ce484222325);
    for (size_t i = 0; i < size; i++)
        word = (word ^ text[i]) * UINT64_C(0x100000001b3);
}

/* Room for what is needed: mostly just that or more, and now and then one too few or none. */
static size_t room_for(size_t needed, int scarce)
{
    switch (draw(scarce ? 8 : 4)) {
    case 0: case 1: return needed + 1 + draw(8);
    case 6: return needed - 1;
    case 7: return 0;
    default: return needed;
    }
}

/* ---- lending */

static size_t bytes(const struct call *c, int i)
{
    return c->count[i] * unit[i];
}

static uint8_t *place(const struct call *c, int i)
{
    return c->behind ? pages[i].end - bytes(c, i) : pages[i].start;
}

static void *lent(const struct call *c, int i)
{
    return c->null && c->count[i] == 0 ? NULL : place(c, i);
}

static uint8_t *marked(const struct call *c, int i)
{
    return c->behind ? pages[i].end - MARKED : pages[i].start;
}

static void get_pages(void)
{
    size_t page = (size_t)sysconf(_SC_PAGESIZE), size = (LONGEST + page - 1) / page * page;
    for (int i = 0; i < LENT; i++) {
        uint8_t *at = mmap(NULL, size + 2 * page, PROT_NONE, MAP_PRIVATE | MAP_ANONYMOUS, -1, 0);
        must(at != MAP_FAILED, "no pages");
        pages[i].start = at + page;
        pages[i].end = at + page + size;
        must(mprotect(pages[i].start, size, PROT_READ | PROT_WRITE) == 0, "no pages");
    }
}

static void read_text(struct call *c, const uint8_t *text, size_t size)
{
    c->count[TEXT] = size;
    c->count[FORMAT] = c->count[ROWS] = c->count[ORDER] = c->count[LINE] = 1;
    memcpy(place(c, TEXT), text, size);
    for (int i = FORMAT; i <= LINE; i++)
        memset(marked(c, i), c->mark, MARKED);
    c->answer = moorspindle_read_record(lent(c, TEXT), size, lent(c, FORMAT), lent(c, ROWS),
            lent(c, WCS), c->count[WCS], lent(c, ORDER), lent(c, A), c->count[A], lent(c, B), c->count[B],
            lent(c, SUMS), c->count[SUMS], lent(c, LINE));
}

/* ---- what must stand afterwards */

static uint64_t number(const struct call *c, int i)
{
    uint64_t wide = 0; /* the low bytes are first on every host of ours */
    memcpy(&wide, place(c, i), unit[i]);
    return wide;
}

static size_t terms_of(uint64_t order)
{
    must(2 <= order && order <= 5, "an order outside 2..5");
    return (size_t)((order + 1) * (order + 2) / 2 - 3);
}

/* How many elements of an output the answer stands for. */
static size_t written(const struct call *c, int i)
{
    if (c->answer == FORM)
        return i == LINE;
    if (c->answer == ROOM || i == LINE)
        return 0;
    if (i == A || i == B)
        return terms_of(number(c, ORDER));
    return i == WCS ? 6 : i == SUMS ? 3 : 1;
}

static int has_mark(const struct call *c, const uint8_t *from, const uint8_t *to)
{
    return from == to || (*from == c->mark && memcmp(from, from + 1, (size_t)(to - from) - 1) == 0);
}

/* The text has its bytes, and all but what the answer stands for has its mark. */
static void check_kept(const struct call *c, const uint8_t *text)
{
    must(c->answer == DONE || c->answer == ROOM || c->answer == FORM, "an answer other than 0, 7, 10");
    must(memcmp(place(c, TEXT), text, c->count[TEXT]) == 0, "the text changed");
    for (int i = FORMAT; i <= LINE; i++) {
        uint8_t *start = marked(c, i), *at = place(c, i), *rest = at + written(c, i) * unit[i];
        must(written(c, i) <= c->count[i], "more written than there is room for");
        must(has_mark(c, start, at) && has_mark(c, rest, start + MARKED), "an output changed that must not");
    }
}

/* How many coefficients of an axis have a line; the dropped ones are +0.0. */
static size_t lines_of(const struct call *c, int axis)
{
    static const uint64_t zero = 0;
    size_t lines = 0;
    for (size_t i = 0; i < written(c, axis); i++) {
        double x;
        memcpy(&x, place(c, axis) + 8 * i, sizeof x);
        int kept = fabs(x) > 1e-20;
        must(kept || memcmp(&x, &zero, sizeof x) == 0, "a dropped coefficient that is not +0.0");
        lines += (size_t)kept;
    }
    return lines;
}

/* Makes a record of format 1 that of format 2: other are the digit of its format and, in each line of a
   coefficient, the sign bit. */
static void turn_signs(uint8_t *text, size_t size)
{
    static const char digits[] = "0123456789abcdef";
    text[7] = '2';
    for (size_t at = 1; at < size; at++) {
        const uint8_t *line = text + at;
        if (line[-1] == '\n' && (line[0] == 'a' || line[0] == 'b') && line[1] == '_')
            text[at + 6] = (uint8_t)digits[(strchr(digits, line[6]) - digits) ^ 8];
    }
}

/* What was written back reads as the same solution. */
static void check_read_again(const struct call *c, const uint8_t *text, size_t size)
{
    struct call again = {.behind = !c->behind, .mark = c->mark};
    memcpy(again.count, c->count, sizeof again.count);
    read_text(&again, text, size);
    check_kept(&again, text);
    must(again.answer == DONE && number(&again, FORMAT) == 2, "a written record is no record of format 2");
    for (int i = ROWS; i < LINE; i++)
        must(memcmp(place(c, i), place(&again, i), written(c, i) * unit[i]) == 0, "another solution is read back");
}

static void check_written_back(const struct call *c, const uint8_t *text, size_t size)
{
    static uint8_t wanted[LONGEST];
    struct call back = {.behind = !c->behind, .count = {[BACK] = size}};
    size_t terms = terms_of(number(c, ORDER));
    uint64_t end = 0;
    must(memcmp(text, "format=", 7) == 0 && text[7] == '0' + number(c, FORMAT), "another format");
    must(number(c, FORMAT) == 1 || number(c, FORMAT) == 2, "a format that there is not");
    memcpy(wanted, text, size);
    if (number(c, FORMAT) == 1)
        turn_signs(wanted, size);
    memset(place(&back, BACK), (uint8_t)~c->mark, size);
    uint32_t answer = moorspindle_write_record(number(c, ROWS), lent(c, WCS), 6, (uint32_t)number(c, ORDER),
            lent(c, A), terms, lent(c, B), terms, lent(c, SUMS), 3, lent(&back, BACK), size, &end);
    must(answer == DONE, "an accepted record cannot be written");
    must(end == size && memcmp(place(&back, BACK), wanted, size) == 0, "a record is written back otherwise");
    if (number(c, FORMAT) == 1)
        check_read_again(c, wanted, size);
}

static void check_line(const struct call *c, const uint8_t *text, size_t size)
{
    uint64_t last = 1;
    for (size_t i = 0; i < size; i++)
        last += text[i] == '\n';
    must(1 <= number(c, LINE) && number(c, LINE) <= last, "a line outside the text");
}

/* With other room the answer is the same, or, for want of it alone, number 7. */
static void check_same(const struct call *ample, const struct call *other)
{
    int room = 1;
    for (int i = FORMAT; i <= LINE; i++)
        room &= written(ample, i) <= other->count[i];
    must(other->answer == (room ? ample->answer : ROOM), "another answer with other room");
    for (int i = FORMAT; room && i <= LINE; i++)
        must(memcmp(place(ample, i), place(other, i), written(ample, i) * unit[i]) == 0,
                "another output with other room");
}

/* ---- the fuzzer's side */

static void count(const struct call *ample, const struct call *other)
{
    without_room += other->answer == ROOM;
    if (ample->answer == DONE) {
        size_t lines = lines_of(ample, A) + lines_of(ample, B);
        accepted[number(ample, FORMAT)]++;
        seen[LINES + (number(ample, FORMAT) * ORDERS + number(ample, ORDER)) * KEPT + lines] = 1;
        return;
    }
    uint64_t line = number(ample, LINE);
    refused++;
    refused_at[line]++;
    seen[line < LINES ? line : LINES - 1] = 1;
}

static struct call ample_call(void)
{
    struct call c = {.behind = draw(2) == 0};
    c.null = draw(2) == 0;
    c.mark = (uint8_t)draw(256);
    c.count[WCS] = 6 + draw(8);
    c.count[A] = TERMS + draw(8);
    c.count[B] = TERMS + draw(8);
    c.count[SUMS] = 3 + draw(8);
    return c;
}

/* The other way round, and with another mark, so that an output that neither call writes differs. */
static struct call other_call(const struct call *ample)
{
    struct call c = {.behind = !ample->behind, .null = !ample->null};
    size_t terms = terms_of(ample->answer == DONE ? number(ample, ORDER) : 2 + draw(4));
    int scarce = draw(4) == 0;
    c.mark = (uint8_t)(ample->mark + 1 + draw(255));
    c.count[WCS] = room_for(6, scarce);
    c.count[A] = room_for(terms, scarce);
    c.count[B] = room_for(terms, scarce);
    c.count[SUMS] = room_for(3, scarce);
    return c;
}

int LLVMFuzzerTestOneInput(const uint8_t *text, size_t size)
{
    if (size > LONGEST)
        return 0;
    texts++;
    choose_by(text, size);
    struct call ample = ample_call();
    read_text(&ample, text, size);
    must(ample.answer != ROOM, "number 7 with ample room");
    check_kept(&ample, text);
    if (ample.answer == DONE)
        check_written_back(&ample, text, size);
    else
        check_line(&ample, text, size);
    struct call other = other_call(&ample);
    read_text(&other, text, size);
    check_kept(&other, text);
    check_same(&ample, &other);
    count(&ample, &other);
    return 0;
}

/* The last words, where the fuzzer ends of itself; after a crash there are none. */
static void tell(void)
{
    uint64_t first = 0, last = 0;
    int entries = 0;
    printf("refused at line");
    for (uint64_t line = 1; line < LONGEST + 2; line++) {
        if (refused_at[line] == 0)
            continue;
        printf("%s%4" PRIu64 ":%9" PRIu64, entries++ % 6 ? "" : "\n", line, refused_at[line]);
        first = first ? first : line;
        last = line;
    }
    printf("\n%" PRIu64 " texts: %" PRIu64 " of format 1 and %" PRIu64 " of format 2 accepted, %" PRIu64
            " refused at lines %" PRIu64 " to %" PRIu64 "; number 7 for want of room %" PRIu64
            " times; nothing wrong\n",
            texts, accepted[1], accepted[2], refused, first, last, without_room);
}

int LLVMFuzzerInitialize(int *argc, char ***argv)
{
    (void)argc, (void)argv;
    get_pages();
    return atexit(tell);
}
