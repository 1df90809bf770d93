/* The C face of Moorspindle: the calls of crates/moorspindle, as the node links them.

       cc -Ibindings/c program.c "$(bindings/archive)"

   `bindings/archive` builds the archive and prints its path. Nothing here allocates, blocks,
   prints or keeps state; any thread may call anything at any time.

   LISTS. A list is a pointer and then its length in elements, not bytes. A list of length 0 is
   neither read nor written, so that its pointer may be null. The pointer of a longer list, and
   of a number, is to memory of that size and alignment. What is lent as an output overlaps
   nothing else that is lent to the same call.

   ANSWERS. A call that returns uint32_t answers 0 when it is done, or refuses by the number of
   the first of these that holds, in this order; an enum below has a name for each:

       10  a record that is read is not in its form
        1  a count is outside its limit
        2  lengths that belong together differ
        3  a value is outside its domain, as NaN and infinity always are; what takes every
           float (hashes, the numbers of an rms, of equations, a record's coefficients and
           sums) has no domain to be outside of
        4  a place is outside its list
       11  the index does not belong to this list
        5  the SIP order is outside 2..5
        6  too few rows for a SIP fit
        7  the result needs more places than the lent output has
        8  degenerate: a spine, a determinant or a pivot is too small
        9  the CD draw ends with fewer than 3 rows on

   No input needs to be checked first. On a refusal nothing that was lent is changed, but for
   the clip's number 8 and the line of number 10. When a call is done, places of an output past the
   result keep their old values: an output may always be longer than what it needs.

   DOMAIN. Lists of stars, detections, rows, votes and catalogue results have 0..100 members,
   lists of quads 0..12,000. A position (x, y, px, py, xi, eta, right ascension, declination, a
   reference pixel) has a magnitude of at most 1,048,576; an snr is 0..1,048,576, a weight
   0..2^40, a mask byte 0 or 1; a limit (min_spine_sq, threshold, limit) is finite and not below
   zero, and CD and affine numbers are finite. -0.0 counts as zero. A value outside is number 3
   also where its row is off. A mask, weights or snr of more than 100 are number 1 like any list
   of rows, also beside fewer rows: counts are looked at before lengths are compared.

   SHAPES. Rows are four lists of one length: px, py (pixels), xi, eta (tangent plane). A quad is
   four star places A, B, C, D, bytes, and four hash numbers. A match is eight places: the image
   quad's four, and then the catalogue quad's. A CD is cd1_1, cd1_2, xi0, cd2_1, cd2_2, eta0:
   xi = cd1_1 px + cd1_2 py + xi0, and eta alike. An affine is a11, a12, tx, a21, a22, ty. A WCS
   is crpix1, crpix2, cd1_1, cd1_2, cd2_1, cd2_2. One of these three in another length than six
   is number 2. */
#ifndef MOORSPINDLE_H
#define MOORSPINDLE_H
#include <stddef.h>
#include <stdint.h>

/* An output overlaps nothing else that is lent to the same call. */
#ifdef __cplusplus
#define MOORSPINDLE_RESTRICT __restrict
extern "C" {
#elif defined(__STDC_VERSION__) && __STDC_VERSION__ >= 199901L
#define MOORSPINDLE_RESTRICT restrict
#else
#define MOORSPINDLE_RESTRICT
#endif

/* The answers, by the table above. */
enum {
    MOORSPINDLE_DONE = 0,
    MOORSPINDLE_COUNT = 1,
    MOORSPINDLE_LENGTHS = 2,
    MOORSPINDLE_VALUE = 3,
    MOORSPINDLE_PLACE = 4,
    MOORSPINDLE_ORDER = 5,
    MOORSPINDLE_ROWS = 6,
    MOORSPINDLE_ROOM = 7,
    MOORSPINDLE_DEGENERATE = 8,
    MOORSPINDLE_FEW = 9,
    MOORSPINDLE_FORM = 10,
    MOORSPINDLE_INDEX = 11
};

/* The sizes that a caller needs: the longest list of stars, detections, rows, votes or results; the
   longest list of quads; the keys around a hash; the terms of a polynomial of order 5; the bytes of
   the longest record. */
enum {
    MOORSPINDLE_MOST_ROWS = 100,
    MOORSPINDLE_MOST_QUADS = 12000,
    MOORSPINDLE_KEYS = 81,
    MOORSPINDLE_MOST_TERMS = 18,
    MOORSPINDLE_MOST_RECORD = 1065
};

/* ---- floats: every float is taken, and nothing is refused */

/* x without its sign; NaN gives NaN. */
double moorspindle_magnitude(double x);

/* The greatest whole number that is not above x, held to the range of int32_t; NaN gives 0. */
int32_t moorspindle_floor(double x);

/* IEEE 754's square root: the nearest double to the exact one. -0.0 gives -0.0, any other
   number below zero NaN. */
double moorspindle_root(double x);

/* u^p by p rounded products: u^0 is 1, and u^(p+1) is u^p times u. */
double moorspindle_power(double u, uint32_t p);

/* ---- quads */

/* The first pair of greatest squared distance among the stars at four places: `spine` gets its
   two places, by smaller x, then y, then place, and then the other two in their order. Needs 4.
   Refuses with 1 2 3 4 7. */
uint32_t moorspindle_find_spine(
        const double *xs, size_t xs_len, const double *ys, size_t ys_len, uint8_t p0, uint8_t p1,
        uint8_t p2, uint8_t p3, uint8_t *MOORSPINDLE_RESTRICT spine, size_t spine_len);

/* The places a and b of two stars, by smaller x, then y, then place. Needs 2. Refuses with 3 7. */
uint32_t moorspindle_orient_spine(
        double ax, double ay, uint8_t a, double bx, double by, uint8_t b,
        uint8_t *MOORSPINDLE_RESTRICT pair, size_t pair_len);

/* The hash of four stars with the spine a, b: the other two in the frame of the spine, divided
   by its squared length. `places` gets a, b, and c and d in the order in which they stand in
   the hash. Needs 4 and 4. Refuses with 1 2 3 4 7 8. */
uint32_t moorspindle_normalize_quad_ordered(
        const double *xs, size_t xs_len, const double *ys, size_t ys_len, uint8_t a, uint8_t b,
        uint8_t c, uint8_t d, double *MOORSPINDLE_RESTRICT hash, size_t hash_len,
        uint8_t *MOORSPINDLE_RESTRICT places, size_t places_len);

/* Begins the sets of four places below n, which is at most 100. `state` gets 5 bytes: four
   places, and a byte that is 1 when no set is left. Refuses with 1 7. */
uint32_t moorspindle_combinations_4(
        uint32_t n, uint8_t *MOORSPINDLE_RESTRICT state, size_t state_len);

/* The next set, in rising order: *given is 1 and `places` gets its 4 places, or *given is 0, none
   was left and `places` is unchanged. `state` has exactly 5 bytes, as the last call left them.
   Refuses with 1 2 3 4 7. */
uint32_t moorspindle_combinations_4_next(
        uint32_t n, uint8_t *MOORSPINDLE_RESTRICT state, size_t state_len,
        uint8_t *MOORSPINDLE_RESTRICT places, size_t places_len,
        uint8_t *MOORSPINDLE_RESTRICT given);

/* The quads of a list of stars: each star with any three of its k nearest (k is at most 10), each
   set of four once, but for those whose squared spine is below min_spine_sq. *quads is their
   number; `places` and `hashes` need 4 for each. Refuses with 1 2 3 7. */
uint32_t moorspindle_neighbor_quads(
        const double *xs, size_t xs_len, const double *ys, size_t ys_len, uint32_t k,
        double min_spine_sq, uint8_t *MOORSPINDLE_RESTRICT places, size_t places_len,
        double *MOORSPINDLE_RESTRICT hashes, size_t hashes_len,
        uint64_t *MOORSPINDLE_RESTRICT quads);

/* The key of a hash: four lanes of 16 bits, of h0 lowest. Every float is taken. */
uint64_t moorspindle_discrete_hash_key(double h0, double h1, double h2, double h3);

/* The 81 keys whose lanes are at most one away; number 40 is the key itself. Needs 81. Refuses
   with 7. */
uint32_t moorspindle_discrete_hash_key_neighbors(
        double h0, double h1, double h2, double h3,
        uint64_t *MOORSPINDLE_RESTRICT keys, size_t keys_len);

/* ---- matches and pairs */

/* The matches of two lists of quads: where the catalogue quad's key is one of the image quad's
   81. They stand by image quad, then key number, then catalogue quad. *found is their number;
   `matches` needs 8 for each. Hashes are any floats, and places any bytes. Refuses with 1 2 7. */
uint32_t moorspindle_find_matches(
        const uint8_t *image_places, size_t image_places_len,
        const double *image_hashes, size_t image_hashes_len,
        const uint8_t *catalogue_places, size_t catalogue_places_len,
        const double *catalogue_hashes, size_t catalogue_hashes_len,
        uint8_t *MOORSPINDLE_RESTRICT matches, size_t matches_len,
        uint64_t *MOORSPINDLE_RESTRICT found);

/* The index of a list of catalogue quads, built once and good for every search in that list. It
   has two words for each quad: first the keys, lane 0 in their highest 16 bits, rising, and of
   equal ones that of the smaller place first; then the places in that order. Refuses with 1 2 7. */
uint32_t moorspindle_build_hash_index(
        const double *catalogue_hashes, size_t catalogue_hashes_len,
        uint64_t *MOORSPINDLE_RESTRICT table, size_t table_len);

/* The matches, their order and their number of moorspindle_find_matches, found by the index of the
   catalogue quads: the same answers in a small part of the time. The table is looked through on
   every call. One that does not start with the index of these very hashes, as a shorter one cannot,
   is number 11; words past the index are not read. Refuses with 1 2 11 7. */
uint32_t moorspindle_find_matches_indexed(
        const uint8_t *image_places, size_t image_places_len,
        const double *image_hashes, size_t image_hashes_len,
        const uint8_t *catalogue_places, size_t catalogue_places_len,
        const double *catalogue_hashes, size_t catalogue_hashes_len,
        const uint64_t *table, size_t table_len,
        uint8_t *MOORSPINDLE_RESTRICT matches, size_t matches_len,
        uint64_t *MOORSPINDLE_RESTRICT found);

/* The pairs of detections and catalogue results that the matches vote for: each pair has two
   votes or more, and no detection and no catalogue id stands in two. image_ids has, for each
   star of the image list, its place among the detections; catalogue_ids the id of each star
   of the catalogue list; result_ids the ids that have a position, of repeated ones the last. The
   pairs stand by votes falling, then by detection; *pairs is their number, which each of the six
   outputs needs. A vote for a place or an id that does not exist is skipped; one that counts and
   names no detection is number 4. Refuses with 1 2 3 4 7. */
uint32_t moorspindle_extract_pairs(
        const uint8_t *matches, size_t matches_len, const double *det_x, size_t det_x_len,
        const double *det_y, size_t det_y_len, const double *det_snr, size_t det_snr_len,
        const uint32_t *image_ids, size_t image_ids_len,
        const int64_t *catalogue_ids, size_t catalogue_ids_len,
        const int64_t *result_ids, size_t result_ids_len,
        const double *result_ra, size_t result_ra_len,
        const double *result_dec, size_t result_dec_len,
        double *MOORSPINDLE_RESTRICT px_x, size_t px_x_len,
        double *MOORSPINDLE_RESTRICT px_y, size_t px_y_len,
        double *MOORSPINDLE_RESTRICT ra, size_t ra_len,
        double *MOORSPINDLE_RESTRICT dec, size_t dec_len,
        uint32_t *MOORSPINDLE_RESTRICT votes, size_t votes_len,
        double *MOORSPINDLE_RESTRICT snr, size_t snr_len, uint64_t *MOORSPINDLE_RESTRICT pairs);

/* ---- the affine score */

/* The affine that takes the pixels of the rows at three places to their points. Needs 6. Refuses
   with 1 2 3 4 7 8. */
uint32_t moorspindle_fit_affine_3pt(
        const double *px, size_t px_len, const double *py, size_t py_len,
        const double *xi, size_t xi_len, const double *eta, size_t eta_len, uint8_t a, uint8_t b,
        uint8_t c, double *MOORSPINDLE_RESTRICT affine, size_t affine_len);

/* *inliers: how many rows lie less than `threshold` pixels from where the affine's inverse puts
   their point; 0 where it has no inverse. Refuses with 1 2 3. */
uint32_t moorspindle_count_affine_inliers(
        const double *px, size_t px_len, const double *py, size_t py_len,
        const double *xi, size_t xi_len, const double *eta, size_t eta_len,
        const double *affine, size_t affine_len, double threshold,
        uint64_t *MOORSPINDLE_RESTRICT inliers);

/* *score: the most rows that agree, to less than 10 pixels, with the affine of one of a thousand
   triples of a fixed draw; fewer than three rows have 0. Refuses with 1 2 3. */
uint32_t moorspindle_verify_pairs(
        const double *px, size_t px_len, const double *py, size_t py_len,
        const double *xi, size_t xi_len, const double *eta, size_t eta_len,
        uint64_t *MOORSPINDLE_RESTRICT score);

/* ---- the plate */

/* The CD that fits the rows that are on, by least squares. Needs 6. Refuses with 1 2 3 7 8. */
uint32_t moorspindle_fit_cd_matrix_6(
        const double *px, size_t px_len, const double *py, size_t py_len,
        const double *xi, size_t xi_len, const double *eta, size_t eta_len,
        const uint8_t *mask, size_t mask_len, double *MOORSPINDLE_RESTRICT cd, size_t cd_len);

/* The same, each row by its weight. Needs 6. Refuses with 1 2 3 7 8. */
uint32_t moorspindle_fit_cd_weighted(
        const double *px, size_t px_len, const double *py, size_t py_len,
        const double *xi, size_t xi_len, const double *eta, size_t eta_len,
        const uint8_t *mask, size_t mask_len, const double *weights, size_t weights_len,
        double *MOORSPINDLE_RESTRICT cd, size_t cd_len);

/* How many pixels each row is away from where the CD's inverse puts its point; +0.0 for one that
   is off. A CD without an inverse gives NaN and infinities. Needs one for each row. Refuses with
   1 2 3 7. */
uint32_t moorspindle_compute_pixel_errors(
        const double *px, size_t px_len, const double *py, size_t py_len,
        const double *xi, size_t xi_len, const double *eta, size_t eta_len,
        const uint8_t *mask, size_t mask_len, const double *cd, size_t cd_len,
        double *MOORSPINDLE_RESTRICT errors, size_t errors_len);

/* Marks the rows of a plate: of `trials` triples of a fixed draw (at most 1,000), each fitted and
   refitted from the rows within `limit` pixels, the one with the most such rows. No trial had
   more. Triples are drawn from the rows with at least a third, rounded down, of the greatest
   vote; with fewer than three of these the run is untested: *tested is 0 and every row is on.
   Otherwise *tested is 1. *on is the number of ones; `mask` needs a byte for each row. `votes`
   may be longer or shorter than the rows. Refuses with 1 2 3 7 9. */
uint32_t moorspindle_ransac_fit(
        const double *px, size_t px_len, const double *py, size_t py_len,
        const double *xi, size_t xi_len, const double *eta, size_t eta_len,
        const uint32_t *votes, size_t votes_len, double limit, uint32_t trials,
        uint8_t *MOORSPINDLE_RESTRICT mask, size_t mask_len, uint8_t *MOORSPINDLE_RESTRICT tested,
        uint64_t *MOORSPINDLE_RESTRICT on);

/* Turns rows off whose error, times the root of the weight, is more than three times the root of
   the mean weighted square, and fits the rest anew, up to ten rounds: until a round turns none
   off, or fewer than three are on. `mask` and `cd` are read and written. Refuses with 1 2 3 8;
   number 8, a refit that fails, keeps the rows turned off so far and leaves the last good CD in
   `cd`. */
uint32_t moorspindle_sigma_clip_loop_weighted(
        const double *px, size_t px_len, const double *py, size_t py_len,
        const double *xi, size_t xi_len, const double *eta, size_t eta_len,
        uint8_t *MOORSPINDLE_RESTRICT mask, size_t mask_len,
        double *MOORSPINDLE_RESTRICT cd, size_t cd_len, const double *weights, size_t weights_len);

/* For each row, pixel minus where the WCS puts its point (xi, eta in degrees): along x, along y,
   and the length. *residuals is the number of rows, or 0 where the WCS has no inverse; each
   output needs that many. Refuses with 1 2 3 7. */
uint32_t moorspindle_compute_residuals(
        const double *px, size_t px_len, const double *py, size_t py_len,
        const double *xi, size_t xi_len, const double *eta, size_t eta_len,
        const double *wcs, size_t wcs_len, double *MOORSPINDLE_RESTRICT err_x, size_t err_x_len,
        double *MOORSPINDLE_RESTRICT err_y, size_t err_y_len,
        double *MOORSPINDLE_RESTRICT err_px, size_t err_px_len,
        uint64_t *MOORSPINDLE_RESTRICT residuals);

/* The root mean square of at most 100 numbers; 0.0 of none. Every float is taken. Refuses
   with 1. */
uint32_t moorspindle_rms_error(
        const double *err_px, size_t err_px_len, double *MOORSPINDLE_RESTRICT rms);

/* The root of the weighted mean of the squares; 0.0 where the weights' sum is not above 0. Every
   float is taken. Refuses with 1 2. */
uint32_t moorspindle_weighted_rms_error(
        const double *err_px, size_t err_px_len, const double *weights, size_t weights_len,
        double *MOORSPINDLE_RESTRICT rms);

/* Solves n equations (at most 54) by elimination with partial pivoting: `a` has n * n numbers, row
   by row, `b` has n, and both are only read. `x` needs n. Every float is taken. Refuses with
   1 2 7 8. */
uint32_t moorspindle_solve_normal_equations(
        const double *a, size_t a_len, const double *b, size_t b_len, uint32_t n,
        double *MOORSPINDLE_RESTRICT x, size_t x_len);

/* ---- the distortion and the record */

/* Fits, to pixel minus the ideal place under `wcs`, a polynomial of each axis in the offset from
   the reference pixel: the terms u^p v^q with 2 <= p + q <= order (2..5), by total degree, then
   p falling, so that there are 3, 7, 12 or 18. Rows (xi, eta in degrees) weigh snr squared; up to
   ten rounds turn rows off. `a` and `b` need a number for each term, and a coefficient of 1e-20
   or less in magnitude is dropped, 0.0; *rows_used is the number of rows on at the end; `sums`
   gets linear_rms, rms and wrms, and needs 3. The FITS SIP convention's polynomial is ideal minus
   pixel: these numbers with their sign bits turned. Refuses with 1 2 3 5 6 7 8, in this order but
   for 6 and 8 of a later solve, of which the first met counts. */
uint32_t moorspindle_fit_sip(
        const double *px, size_t px_len, const double *py, size_t py_len,
        const double *xi, size_t xi_len, const double *eta, size_t eta_len,
        const double *snr, size_t snr_len, const double *wcs, size_t wcs_len, uint32_t order,
        double *MOORSPINDLE_RESTRICT a, size_t a_len, double *MOORSPINDLE_RESTRICT b, size_t b_len,
        uint64_t *MOORSPINDLE_RESTRICT rows_used,
        double *MOORSPINDLE_RESTRICT sums, size_t sums_len);

/* The text of a solution in format 2, a line for each number, floats as the 16 hex digits of their
   bits. `a` and `b` have a number for each term of the order, as fit_sip solved it: its line holds
   the FITS SIP convention's, with the sign bit turned, and dropped ones have no line. `sums` are
   the three that fit_sip hands out, and in another length number 2. *written is the number of
   bytes, at most 1,065; no zero byte ends them. Refuses with 1 2 3 5 7. */
uint32_t moorspindle_write_record(
        uint64_t rows_used, const double *wcs, size_t wcs_len, uint32_t order,
        const double *a, size_t a_len, const double *b, size_t b_len,
        const double *sums, size_t sums_len, uint8_t *MOORSPINDLE_RESTRICT text, size_t text_len,
        uint64_t *MOORSPINDLE_RESTRICT written);

/* The solution that a record shows: each line as write_record puts it, in its order, and nothing
   after the last. *format is the number of the format line: 2, or 1, whose lines of coefficients
   hold them as solved. Of either, `a` and `b` get what was solved, and a coefficient without a
   line is 0.0; a NaN is the one that was written. Written again, a record of format 2 has the same
   bytes, and one of format 1 is in format 2. `wcs` needs 6, `a` and `b` a number for each term of
   the order, of which there are at most 18, `sums` 3. Refuses with 10, which sets *line to the
   number of the first wrong line, from 1, and changes nothing else: the first that cannot stand
   there, some record beginning with the lines before it and none with those up to it. What ends
   early is wrong at the line that is missing or has no newline, what goes on after the last line
   at the number after it. Then with 7, which changes nothing. A call that is done leaves *line as
   it was. */
uint32_t moorspindle_read_record(
        const uint8_t *text, size_t text_len, uint32_t *MOORSPINDLE_RESTRICT format,
        uint64_t *MOORSPINDLE_RESTRICT rows_used, double *MOORSPINDLE_RESTRICT wcs, size_t wcs_len,
        uint32_t *MOORSPINDLE_RESTRICT order, double *MOORSPINDLE_RESTRICT a, size_t a_len,
        double *MOORSPINDLE_RESTRICT b, size_t b_len,
        double *MOORSPINDLE_RESTRICT sums, size_t sums_len, uint64_t *MOORSPINDLE_RESTRICT line);

#ifdef __cplusplus
}
#endif
#endif
