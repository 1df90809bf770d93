/* The quad calls from C: each answer, and every byte of all that is lent, beside what it must be. */
#include "moorspindle.h"

#include <inttypes.h>
#include <math.h>
#include <stdio.h>
#include <string.h>

/* What the calls write into, and what must stand there afterwards. */
static struct lent {
    double hash[6];
    uint64_t keys[82];
    uint64_t quads;
    uint8_t places[6];
    uint8_t state[6];
    uint8_t given;
} lent, due;

static const double xs[] = {0, 1, 0, 1}; /* the unit square */
static const double ys[] = {0, 0, 1, 1};
static const double bad[] = {0, 1, NAN, 1};
static const double many[101];

static int wrong = 0;

/* Marks every byte, so that one that is written without need shows. */
static void lend(void)
{
    memset(&lent, 0xaa, sizeof lent);
    memcpy(&due, &lent, sizeof due);
}

static void four(uint8_t *to, uint8_t a, uint8_t b, uint8_t c, uint8_t d)
{
    to[0] = a, to[1] = b, to[2] = c, to[3] = d;
}

static void state(uint8_t *to, uint8_t a, uint8_t b, uint8_t c, uint8_t d, uint8_t done)
{
    four(to, a, b, c, d);
    to[4] = done;
}

static void check(const char *call, uint32_t got, uint32_t number)
{
    int same = got == number && memcmp(&lent, &due, sizeof due) == 0;
    printf("%-2" PRIu32 " %s%s\n", got, call, same ? "" : "  WRONG");
    wrong += !same;
}

static void key(const char *call, uint64_t got, uint64_t number)
{
    printf("%016" PRIx64 " %s%s\n", got, call, got == number ? "" : "  WRONG");
    wrong += got != number;
}

#define CALL(number, call) check(#call, moorspindle_##call, number)
#define CALL_KEY(due, call) key(#call, moorspindle_##call, UINT64_C(due))
#define REFUSED(number, call) (lend(), check(#call, moorspindle_##call, number))

static void spine(void)
{
    lend();
    four(due.places, 0, 3, 1, 2);
    CALL(0, find_spine(xs, 4, ys, 4, 0, 1, 2, 3, lent.places, 6));
    REFUSED(1, find_spine(many, 101, ys, 4, 0, 1, 2, 3, lent.places, 0));
    REFUSED(2, find_spine(xs, 4, ys, 3, 0, 1, 2, 3, lent.places, 0));
    REFUSED(3, find_spine(bad, 4, ys, 4, 0, 1, 2, 4, lent.places, 0));
    REFUSED(4, find_spine(xs, 4, ys, 4, 0, 1, 2, 4, lent.places, 0));
    REFUSED(7, find_spine(xs, 4, ys, 4, 0, 1, 2, 3, lent.places, 3));
    REFUSED(4, find_spine(NULL, 0, NULL, 0, 0, 0, 0, 0, NULL, 0));

    lend();
    due.places[0] = 0, due.places[1] = 3;
    CALL(0, orient_spine(1, 1, 3, 0, 0, 0, lent.places, 2));
    REFUSED(3, orient_spine(1, 1, 3, 0, INFINITY, 0, lent.places, 1));
    REFUSED(7, orient_spine(1, 1, 3, 0, 0, 0, lent.places, 1));
}

static void normalize(void)
{
    lend();
    due.hash[0] = 0.5, due.hash[1] = -0.5, due.hash[2] = 0.5, due.hash[3] = 0.5;
    four(due.places, 0, 3, 1, 2);
    CALL(0, normalize_quad_ordered(xs, 4, ys, 4, 0, 3, 2, 1, lent.hash, 6, lent.places, 6));
    REFUSED(1, normalize_quad_ordered(xs, 4, many, 101, 0, 3, 1, 2, lent.hash, 3, lent.places, 3));
    REFUSED(2, normalize_quad_ordered(xs, 3, ys, 4, 0, 3, 1, 2, lent.hash, 3, lent.places, 3));
    REFUSED(3, normalize_quad_ordered(xs, 4, bad, 4, 0, 3, 1, 4, lent.hash, 3, lent.places, 3));
    REFUSED(4, normalize_quad_ordered(xs, 4, ys, 4, 0, 3, 1, 4, lent.hash, 3, lent.places, 3));
    REFUSED(7, normalize_quad_ordered(xs, 4, ys, 4, 0, 3, 1, 2, lent.hash, 3, lent.places, 6));
    REFUSED(7, normalize_quad_ordered(xs, 4, ys, 4, 0, 3, 1, 2, lent.hash, 6, lent.places, 3));
    /* a spine from a star to itself: the room comes before number 8 */
    REFUSED(7, normalize_quad_ordered(xs, 4, ys, 4, 1, 1, 0, 2, lent.hash, 3, lent.places, 4));
    REFUSED(7, normalize_quad_ordered(xs, 4, ys, 4, 1, 1, 0, 2, lent.hash, 4, lent.places, 3));
    REFUSED(8, normalize_quad_ordered(xs, 4, ys, 4, 1, 1, 0, 2, lent.hash, 4, lent.places, 4));
}

static void combinations(void)
{
    static const uint8_t sets[][4] = {{0, 1, 2, 3}, {0, 1, 2, 4}, {0, 1, 3, 4}, {0, 2, 3, 4}, {1, 2, 3, 4}};

    lend();
    state(due.state, 0, 0, 0, 0, 1);
    CALL(0, combinations_4(3, lent.state, 5));
    REFUSED(1, combinations_4(101, lent.state, 4));
    REFUSED(7, combinations_4(5, lent.state, 4));

    lend();
    state(due.state, 0, 1, 2, 3, 0);
    CALL(0, combinations_4(5, lent.state, 6));
    for (int i = 0; i < 5; i++) {
        memcpy(due.places, sets[i], 4);
        if (i < 4)
            memcpy(due.state, sets[i + 1], 4);
        else
            state(due.state, 2, 3, 4, 5, 1);
        due.given = 1;
        CALL(0, combinations_4_next(5, lent.state, 5, lent.places, 6, &lent.given));
    }
    due.given = 0;
    CALL(0, combinations_4_next(5, lent.state, 5, lent.places, 0, &lent.given));
}

static void refused_steps(void)
{
    lend();
    CALL(1, combinations_4_next(101, lent.state, 4, lent.places, 6, &lent.given));
    CALL(2, combinations_4_next(5, lent.state, 4, lent.places, 6, &lent.given));
    CALL(2, combinations_4_next(5, lent.state, 6, lent.places, 6, &lent.given));
    state(lent.state, 0, 1, 1, 3, 2);
    state(due.state, 0, 1, 1, 3, 2);
    CALL(3, combinations_4_next(5, lent.state, 5, lent.places, 6, &lent.given));
    lent.state[4] = due.state[4] = 0;
    CALL(4, combinations_4_next(5, lent.state, 5, lent.places, 3, &lent.given));
    lent.state[2] = due.state[2] = 2;
    CALL(7, combinations_4_next(5, lent.state, 5, lent.places, 3, &lent.given));
}

static void search(void)
{
    lend();
    due.hash[0] = 0.5, due.hash[1] = -0.5, due.hash[2] = 0.5, due.hash[3] = 0.5;
    four(due.places, 0, 3, 1, 2);
    due.quads = 1;
    CALL(0, neighbor_quads(xs, 4, ys, 4, 3, 2.0, lent.places, 6, lent.hash, 6, &lent.quads));
    lend();
    due.quads = 0;
    CALL(0, neighbor_quads(xs, 4, ys, 4, 3, 2.5, lent.places, 0, lent.hash, 0, &lent.quads));
    CALL(0, neighbor_quads(NULL, 0, NULL, 0, 10, 0.0, NULL, 0, NULL, 0, &lent.quads));
    REFUSED(1, neighbor_quads(xs, 4, ys, 3, 11, 0.0, lent.places, 6, lent.hash, 6, &lent.quads));
    REFUSED(1, neighbor_quads(many, 101, ys, 4, 3, 0.0, lent.places, 6, lent.hash, 6, &lent.quads));
    REFUSED(2, neighbor_quads(bad, 4, ys, 3, 3, 0.0, lent.places, 6, lent.hash, 6, &lent.quads));
    REFUSED(3, neighbor_quads(bad, 4, ys, 4, 3, 0.0, lent.places, 3, lent.hash, 6, &lent.quads));
    REFUSED(3, neighbor_quads(xs, 4, ys, 4, 3, -1.0, lent.places, 3, lent.hash, 6, &lent.quads));
    REFUSED(7, neighbor_quads(xs, 4, ys, 4, 3, 0.0, lent.places, 3, lent.hash, 6, &lent.quads));
    REFUSED(7, neighbor_quads(xs, 4, ys, 4, 3, 0.0, lent.places, 6, lent.hash, 3, &lent.quads));
}

static void keys(void)
{
    CALL_KEY(0x0226022601c20226, discrete_hash_key(0.5, -0.5, 0.5, 0.5));
    REFUSED(7, discrete_hash_key_neighbors(0.5, -0.5, 0.5, 0.5, lent.keys, 80));
    lend();
    for (uint64_t k = 0; k < 81; k++) /* lanes 0x225, 0x1c1, 0x225, 0x225, and a step of 0, 1 or 2 more for each */
        due.keys[k] = UINT64_C(0x0225022501c10225) + k / 27 + (k / 9 % 3 << 16) + (k / 3 % 3 << 32) + (k % 3 << 48);
    CALL(0, discrete_hash_key_neighbors(0.5, -0.5, 0.5, 0.5, lent.keys, 82));
    key("key 0", lent.keys[0], UINT64_C(0x0225022501c10225));
    key("key 40", lent.keys[40], UINT64_C(0x0226022601c20226));
}

int main(void)
{
    spine();
    normalize();
    combinations();
    refused_steps();
    search();
    keys();
    printf("%d wrong\n", wrong);
    return wrong != 0;
}
