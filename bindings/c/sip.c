/* The SIP fit from C: each answer, and every byte of all that is lent, beside what it must be. */
#include <stdint.h>

/* What the call writes into, and what must stand there afterwards. */
struct lent {
    double a[4], b[4], sums[4];
    uint64_t rows_used;
};

#include "lent.h"

/* the unit plate, and six pixels that are half the square of u off in x: a_2_0 is 0.5 */
static const double px[] = {1, -1, 1, -1, 1, -1}, py[] = {0, 0, 1, 1, -1, -1};
static const double xi[] = {0.5, -1.5, 0.5, -1.5, 0.5, -1.5}, eta[] = {0, 0, 1, 1, -1, -1};
static const double snr[] = {1, 1, 1, 1, 1, 1}, below[] = {1, 1, 1, 1, 1, -1}, many[101];
static const double wcs[] = {0, 0, 1, 0, 0, 1}, flat[6];

#define ROWS px, 6, py, 6, xi, 6, eta, 6
#define OUT(n, s) lent.a, n, lent.b, 4, &lent.rows_used, lent.sums, s

int main(void)
{
    lend();
    due.a[0] = 0.5, due.a[1] = due.a[2] = 0;
    due.b[0] = due.b[1] = due.b[2] = 0;
    due.rows_used = 6;
    due.sums[0] = 0.5, due.sums[1] = due.sums[2] = 0;
    CALL(0, fit_sip, ROWS, snr, 6, wcs, 6, 2, OUT(4, 4));
    REFUSED(1, fit_sip, ROWS, many, 101, wcs, 6, 2, OUT(4, 4));
    REFUSED(2, fit_sip, ROWS, snr, 5, wcs, 6, 2, OUT(4, 4));
    REFUSED(2, fit_sip, ROWS, snr, 6, wcs, 5, 2, OUT(4, 4));
    REFUSED(3, fit_sip, ROWS, below, 6, wcs, 6, 2, OUT(4, 4));
    REFUSED(5, fit_sip, ROWS, snr, 6, wcs, 6, 6, OUT(4, 4));
    REFUSED(6, fit_sip, ROWS, snr, 6, flat, 6, 3, OUT(2, 2)); /* seven terms */
    REFUSED(7, fit_sip, ROWS, snr, 6, flat, 6, 2, OUT(2, 4));
    REFUSED(7, fit_sip, ROWS, snr, 6, flat, 6, 2, OUT(4, 2));
    REFUSED(8, fit_sip, ROWS, snr, 6, flat, 6, 2, OUT(4, 4));
    return verdict();
}
