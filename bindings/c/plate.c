/* The CD run and the clip from C: each answer, and every byte of all that is lent, beside what it
   must be. */
#include <math.h>
#include <stdint.h>

/* What the calls write into, and what must stand there afterwards. */
struct lent {
    double cd[7];
    uint64_t on;
    uint8_t mask[12];
    uint8_t tested;
};

#include "lent.h"

/* the unit plate: xi is x, eta is y; the last row is off by 3 and 4 pixels */
static const double px[] = {0, 9, 0, 9, 5}, py[] = {0, 0, 9, 9, 5};
static const double xi[] = {0, 9, 0, 9, 8}, eta[] = {0, 0, 9, 9, 9};
static const double bad[] = {0, 9, NAN, 9, 5}, many[101];
static const uint32_t votes[] = {3, 3, 3, 3, 3}, one[] = {30, 9, 9, 9, 9}, third[] = {30, 10, 10, 9};
static const double unit[] = {1, 0, 0, 0, 1, 0};

/* ten rows in a line, of which the last is off, and the only one with a weight */
static const double line[] = {0, 1, 2, 3, 4, 5, 6, 7, 8, 9}, off[] = {0, 1, 2, 3, 4, 5, 6, 7, 8, 12};
static const double low[10], last[] = {0, 0, 0, 0, 0, 0, 0, 0, 0, 1};

/* three rows at one pixel, with the least weight there is */
static const double eighth[] = {0.125, 0.125, 0.125};
static const double least[] = {0x1p-1074, 0x1p-1074, 0x1p-1074};

#define ROWS px, 5, py, 5, xi, 5, eta, 5
#define OUT(n) lent.mask, n, &lent.tested, &lent.on

static void run(void)
{
    lend();
    memset(due.mask, 1, 4), due.mask[4] = 0;
    due.tested = 1, due.on = 4;
    CALL(0, ransac_fit, ROWS, votes, 5, 1.0, 1000, OUT(12));
    lend();
    memset(due.mask, 1, 4), due.mask[4] = 0; /* three of four votes reach the pool */
    due.tested = 1, due.on = 4;
    CALL(0, ransac_fit, ROWS, third, 4, 1.0, 1000, OUT(5));
    lend();
    memset(due.mask, 1, 5); /* a pool of one: nothing is tested, and every row is on */
    due.tested = 0, due.on = 5;
    CALL(0, ransac_fit, ROWS, one, 5, 1.0, 1000, OUT(12));
    REFUSED(1, ransac_fit, many, 101, py, 5, xi, 5, eta, 5, votes, 5, 1.0, 10, OUT(12));
    REFUSED(1, ransac_fit, ROWS, votes, 5, 1.0, 1001, OUT(12));
    REFUSED(2, ransac_fit, px, 4, py, 5, xi, 5, eta, 5, votes, 5, 1.0, 10, OUT(12));
    REFUSED(3, ransac_fit, bad, 5, py, 5, xi, 5, eta, 5, votes, 5, 1.0, 10, OUT(12));
    REFUSED(3, ransac_fit, ROWS, votes, 5, -1.0, 10, OUT(12));
    REFUSED(7, ransac_fit, ROWS, votes, 5, 1.0, 10, OUT(4));
    REFUSED(9, ransac_fit, ROWS, votes, 5, 1.0, 0, OUT(12)); /* no trial, no plate */
}

/* Lends the unit plate and a mask of n rows that are on. */
static void lend_plate(size_t n)
{
    lend();
    memcpy(lent.cd, unit, sizeof unit);
    memset(lent.mask, 1, n);
    memcpy(&due, &lent, sizeof due);
}

static void clip(void)
{
    lend_plate(3);
    memset(due.mask, 0, 3); /* fewer than three are left: done, and no refit */
    CALL(0, sigma_clip_loop_weighted, eighth, 3, low, 3, low, 3, low, 3, lent.mask, 3, lent.cd, 6, least, 3);
    lend_plate(5);
    CALL(0, sigma_clip_loop_weighted, ROWS, lent.mask, 5, lent.cd, 6, low, 5);
    lend_plate(10);
    due.mask[9] = 0; /* number 8 keeps the rejection, and the CD numbers as they were */
    CALL(8, sigma_clip_loop_weighted, line, 10, low, 10, off, 10, low, 10, lent.mask, 10, lent.cd, 6, last, 10);
    lend_plate(5);
    CALL(1, sigma_clip_loop_weighted, ROWS, lent.mask, 5, lent.cd, 6, many, 101);
    CALL(2, sigma_clip_loop_weighted, ROWS, lent.mask, 4, lent.cd, 6, low, 5);
    CALL(2, sigma_clip_loop_weighted, ROWS, lent.mask, 5, lent.cd, 5, low, 5);
    CALL(3, sigma_clip_loop_weighted, ROWS, lent.mask, 5, lent.cd, 6, bad, 5);
}

int main(void)
{
    run();
    clip();
    return verdict();
}
