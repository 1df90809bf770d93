/* The solvers from C: each answer, and every byte of all that is lent, beside what it must be. */
#include <math.h>
#include <stdint.h>

/* What the calls write into, and what must stand there afterwards. */
struct lent {
    double cd[7], errors[5], x[5], y[5], all[5];
    double rms;
    uint64_t count;
};

#include "lent.h"

/* the unit plate: xi is x, eta is y; the last row is off by 3 and 4 pixels */
static const double px[] = {0, 1, 0, 1}, py[] = {0, 0, 1, 1};
static const double xi[] = {0, 1, 0, 4}, eta[] = {0, 0, 1, 5};
static const uint8_t on[] = {1, 1, 1, 1}, three[] = {1, 1, 1, 0}, none[4], bytes[] = {1, 1, 1, 2};
static const double unit[] = {1, 0, 0, 0, 1, 0}, wcs[] = {0, 0, 1, 0, 0, 1}, flat[6];
static const double weights[] = {1, 2, 3, 4}, below[] = {1, 2, 3, -1};
static const double bad[] = {0, 1, NAN, 1};
static const double many[101];
static const double a[] = {0, 2, 4, 0}, b[] = {6, 8};

#define ROWS px, 4, py, 4, xi, 4, eta, 4
#define LISTS(n) lent.x, n, lent.y, 5, lent.all, 5, &lent.count

static void fits(void)
{
    lend();
    memcpy(due.cd, unit, sizeof unit);
    CALL(0, fit_cd_matrix_6, ROWS, three, 4, lent.cd, 7);
    REFUSED(1, fit_cd_matrix_6, many, 101, py, 4, xi, 4, eta, 4, three, 4, lent.cd, 7);
    REFUSED(2, fit_cd_matrix_6, ROWS, three, 3, lent.cd, 7);
    REFUSED(3, fit_cd_matrix_6, ROWS, bytes, 4, lent.cd, 7);
    REFUSED(7, fit_cd_matrix_6, ROWS, none, 4, lent.cd, 5);
    REFUSED(8, fit_cd_matrix_6, ROWS, none, 4, lent.cd, 6);
    lend();
    memcpy(due.cd, unit, sizeof unit);
    CALL(0, fit_cd_weighted, ROWS, three, 4, weights, 4, lent.cd, 7);
    REFUSED(2, fit_cd_weighted, ROWS, three, 4, weights, 3, lent.cd, 7);
    REFUSED(3, fit_cd_weighted, ROWS, three, 4, below, 4, lent.cd, 7);
    REFUSED(8, fit_cd_weighted, ROWS, none, 4, weights, 4, lent.cd, 7);
}

static void errors(void)
{
    lend();
    due.errors[0] = due.errors[1] = due.errors[2] = 0, due.errors[3] = 5;
    CALL(0, compute_pixel_errors, ROWS, on, 4, unit, 6, lent.errors, 5);
    REFUSED(2, compute_pixel_errors, ROWS, on, 4, unit, 5, lent.errors, 5);
    REFUSED(3, compute_pixel_errors, bad, 4, py, 4, xi, 4, eta, 4, on, 4, unit, 6, lent.errors, 5);
    REFUSED(7, compute_pixel_errors, ROWS, on, 4, unit, 6, lent.errors, 3);
    lend();
    due.x[0] = due.x[1] = due.x[2] = 0, due.x[3] = -3;
    due.y[0] = due.y[1] = due.y[2] = 0, due.y[3] = -4;
    due.all[0] = due.all[1] = due.all[2] = 0, due.all[3] = 5;
    due.count = 4;
    CALL(0, compute_residuals, ROWS, wcs, 6, LISTS(5));
    lend();
    due.count = 0; /* no plate, no residuals, and no room is needed */
    CALL(0, compute_residuals, ROWS, flat, 6, LISTS(0));
    REFUSED(2, compute_residuals, ROWS, wcs, 7, LISTS(5));
    REFUSED(7, compute_residuals, ROWS, wcs, 6, LISTS(3));
}

static void sums(void)
{
    static const double fives[] = {5, 5, 5, 5};
    lend();
    due.rms = 5;
    CALL(0, rms_error, fives, 4, &lent.rms);
    CALL(0, weighted_rms_error, fives, 4, weights, 4, &lent.rms);
    REFUSED(1, rms_error, many, 101, &lent.rms);
    REFUSED(2, weighted_rms_error, fives, 4, weights, 3, &lent.rms);
    lend();
    due.x[0] = 2, due.x[1] = 3;
    CALL(0, solve_normal_equations, a, 4, b, 2, 2, lent.x, 5);
    REFUSED(1, solve_normal_equations, a, 4, b, 2, 55, lent.x, 5);
    REFUSED(2, solve_normal_equations, a, 3, b, 2, 2, lent.x, 5);
    REFUSED(7, solve_normal_equations, flat, 4, b, 2, 2, lent.x, 1);
    REFUSED(8, solve_normal_equations, flat, 4, b, 2, 2, lent.x, 2);
}

int main(void)
{
    fits();
    errors();
    sums();
    return verdict();
}
