/* Empty lists from C: a list of length 0 may have a null pointer, in every place of every call. */
#include <stddef.h>
#include <stdint.h>

/* What the calls write into, and what must stand there afterwards. */
struct lent {
    double cd[6], rms;
    uint64_t count;
    uint8_t byte;
};

#include "lent.h"

static const double unit[] = {1, 0, 0, 0, 1, 0}, wcs[] = {0, 0, 1, 0, 0, 1}, sums[3];

#define NONE NULL, 0
#define ROWS NONE, NONE, NONE, NONE

/* A call that is done and writes nothing. */
#define DONE(name, ...) REFUSED(0, name, __VA_ARGS__)

/* A call that is done and says that there is nothing. */
#define NOTHING(name, ...) (lend(), due.count = 0, CALL(0, name, __VA_ARGS__))

static void quads(void)
{
    REFUSED(4, find_spine, NONE, NONE, 0, 0, 0, 0, NONE);
    REFUSED(7, orient_spine, 0, 0, 0, 0, 0, 0, NONE);
    REFUSED(4, normalize_quad_ordered, NONE, NONE, 0, 0, 0, 0, NONE, NONE);
    REFUSED(7, combinations_4, 5, NONE);
    REFUSED(2, combinations_4_next, 5, NONE, NONE, &lent.byte);
    NOTHING(neighbor_quads, NONE, NONE, 10, 0, NONE, NONE, &lent.count);
    REFUSED(7, discrete_hash_key_neighbors, 0, 0, 0, 0, NONE);
}

static void pairs(void)
{
    NOTHING(find_matches, NONE, NONE, NONE, NONE, NONE, &lent.count);
    DONE(build_hash_index, NONE, NONE);
    NOTHING(find_matches_indexed, NONE, NONE, NONE, NONE, NONE, NONE, &lent.count);
    NOTHING(extract_pairs, NONE, NONE, NONE, NONE, NONE, NONE, NONE, NONE, NONE, NONE, NONE, NONE, NONE, NONE, NONE,
            &lent.count);
    REFUSED(4, fit_affine_3pt, ROWS, 0, 0, 0, NONE);
    REFUSED(2, count_affine_inliers, ROWS, NONE, 10, &lent.count);
    NOTHING(count_affine_inliers, ROWS, unit, 6, 10, &lent.count);
    NOTHING(verify_pairs, ROWS, &lent.count);
}

static void plate(void)
{
    REFUSED(7, fit_cd_matrix_6, ROWS, NONE, NONE);
    REFUSED(8, fit_cd_matrix_6, ROWS, NONE, lent.cd, 6);
    REFUSED(7, fit_cd_weighted, ROWS, NONE, NONE, NONE);
    REFUSED(8, fit_cd_weighted, ROWS, NONE, NONE, lent.cd, 6);
    REFUSED(2, compute_pixel_errors, ROWS, NONE, NONE, NONE);
    DONE(compute_pixel_errors, ROWS, NONE, unit, 6, NONE);
    lend();
    due.byte = 0, due.count = 0; /* untested, and no row is on */
    CALL(0, ransac_fit, ROWS, NONE, 1, 1000, NONE, &lent.byte, &lent.count);
    REFUSED(2, sigma_clip_loop_weighted, ROWS, NONE, NONE, NONE);
    lend();
    memcpy(lent.cd, unit, sizeof unit), memcpy(due.cd, unit, sizeof unit);
    CALL(0, sigma_clip_loop_weighted, ROWS, NONE, lent.cd, 6, NONE);
    REFUSED(2, compute_residuals, ROWS, NONE, NONE, NONE, NONE, &lent.count);
    NOTHING(compute_residuals, ROWS, wcs, 6, NONE, NONE, NONE, &lent.count);
    lend();
    due.rms = 0;
    CALL(0, rms_error, NONE, &lent.rms);
    CALL(0, weighted_rms_error, NONE, NONE, &lent.rms);
    DONE(solve_normal_equations, NONE, NONE, 0, NONE);
}

static void distortion(void)
{
    REFUSED(2, fit_sip, ROWS, NONE, NONE, 2, NONE, NONE, &lent.count, NONE);
    REFUSED(6, fit_sip, ROWS, NONE, wcs, 6, 2, NONE, NONE, &lent.count, NONE);
    REFUSED(2, write_record, 0, NONE, 2, NONE, NONE, NONE, NONE, &lent.count);
    REFUSED(2, write_record, 0, wcs, 6, 2, NONE, NONE, sums, 3, NONE, &lent.count);
    REFUSED(5, write_record, 0, wcs, 6, 6, NONE, NONE, sums, 3, NONE, &lent.count);
    REFUSED(7, write_record, 0, wcs, 6, 2, sums, 3, sums, 3, sums, 3, NONE, &lent.count);
}

int main(void)
{
    quads();
    pairs();
    plate();
    distortion();
    return verdict();
}
