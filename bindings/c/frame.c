/* From two lists of stars to the record of a plate. The stars are made up here: those of an image,
   and those of a catalogue that are already projected, a turned, scaled and slightly bent copy.
   bindings/rust/examples/frame.rs does the same, and prints the same. */
#include "moorspindle.h"

#include <inttypes.h>
#include <stdio.h>

enum { STARS = 60, QUADS = MOORSPINDLE_MOST_QUADS, MATCHES = 16384 };
enum { TERMS = 7, RECORD = MOORSPINDLE_MOST_RECORD };

static struct {
    double x[STARS], y[STARS], xi[STARS], eta[STARS], snr[STARS];
    uint32_t image_ids[STARS];
    int64_t catalogue_ids[STARS];
} stars;

static struct {
    uint8_t places[4 * QUADS];
    double hashes[4 * QUADS];
    uint64_t count;
} image, catalogue;

static uint64_t table[2 * QUADS];
static uint8_t matches[8 * MATCHES];

static struct {
    double px[STARS], py[STARS], xi[STARS], eta[STARS], snr[STARS], weights[STARS];
    uint32_t votes[STARS];
    uint8_t mask[STARS];
    uint64_t count;
} rows;

#define LISTS(n) rows.px, n, rows.py, n, rows.xi, n, rows.eta, n

/* Stars here and there on a picture of 4,096 pixels, and where each lies on the tangent plane. */
static void make_stars(void)
{
    uint64_t word = 1;
    for (int i = 0; i < STARS; i++) {
        double at[2];
        for (int axis = 0; axis < 2; axis++) {
            word = word * UINT64_C(6364136223846793005) + UINT64_C(1442695040888963407);
            at[axis] = (double)(word >> 40) / 16777216.0 * 4096.0;
        }
        double u = at[0] - 2048.0, v = at[1] - 2048.0;
        double bent_u = u - 2e-6 * u * u, bent_v = v + 1e-6 * u * v;
        stars.x[i] = at[0], stars.y[i] = at[1];
        stars.xi[i] = 3e-4 * bent_u - 1e-4 * bent_v;
        stars.eta[i] = 1e-4 * bent_u + 3e-4 * bent_v;
        stars.snr[i] = 20.0;
        stars.image_ids[i] = (uint32_t)i, stars.catalogue_ids[i] = 1000 + i;
    }
}

/* Quads of both lists, those of one shape, by an index that serves every image of the field, and the
   pairs that they vote for. */
static uint32_t find_pairs(void)
{
    uint64_t found;
    uint32_t no = moorspindle_neighbor_quads(stars.x, STARS, stars.y, STARS, 5, 0.0,
            image.places, 4 * QUADS, image.hashes, 4 * QUADS, &image.count);
    if (no == 0)
        no = moorspindle_neighbor_quads(stars.xi, STARS, stars.eta, STARS, 5, 0.0,
                catalogue.places, 4 * QUADS, catalogue.hashes, 4 * QUADS, &catalogue.count);
    if (no == 0)
        no = moorspindle_build_hash_index(catalogue.hashes, 4 * catalogue.count, table, 2 * QUADS);
    if (no == 0)
        no = moorspindle_find_matches_indexed(
                image.places, 4 * image.count, image.hashes, 4 * image.count,
                catalogue.places, 4 * catalogue.count, catalogue.hashes, 4 * catalogue.count,
                table, 2 * QUADS, matches, 8 * MATCHES, &found);
    if (no != 0)
        return no;
    printf("%" PRIu64 " and %" PRIu64 " quads, %" PRIu64 " matches\n",
            image.count, catalogue.count, found);
    return moorspindle_extract_pairs(matches, 8 * found,
            stars.x, STARS, stars.y, STARS, stars.snr, STARS,
            stars.image_ids, STARS, stars.catalogue_ids, STARS,
            stars.catalogue_ids, STARS, stars.xi, STARS, stars.eta, STARS,
            rows.px, STARS, rows.py, STARS, rows.xi, STARS, rows.eta, STARS,
            rows.votes, STARS, rows.snr, STARS, &rows.count);
}

/* Pairs are rows: the plate of those that lie on one, without the ones that are far off. */
static uint32_t find_plate(double cd[6])
{
    size_t n = rows.count;
    uint8_t tested;
    uint64_t score, on = 0;
    uint32_t no = moorspindle_verify_pairs(LISTS(n), &score);
    if (no == 0)
        no = moorspindle_ransac_fit(LISTS(n), rows.votes, n, 5.0, 1000, rows.mask, n, &tested, &on);
    if (no != 0)
        return no;
    printf("%zu pairs, %" PRIu64 " agree on an affine\n", n, score);
    for (size_t i = 0; i < n; i++)
        rows.weights[i] = rows.snr[i] * rows.snr[i];
    no = moorspindle_fit_cd_weighted(LISTS(n), rows.mask, n, rows.weights, n, cd, 6);
    if (no == 0)
        no = moorspindle_sigma_clip_loop_weighted(LISTS(n), rows.mask, n, cd, 6, rows.weights, n);
    on = 0;
    for (size_t i = 0; i < n; i++)
        on += rows.mask[i];
    printf("%" PRIu64 " rows on\n", on);
    return no;
}

/* What the plate leaves, as a polynomial about the pixel that it takes to the middle of the plane;
   and the record of it all. */
static uint32_t print_record(const double cd[6])
{
    size_t n = rows.count;
    double det = cd[0] * cd[4] - cd[1] * cd[3];
    double wcs[] = {(cd[1] * cd[5] - cd[4] * cd[2]) / det, (cd[3] * cd[2] - cd[0] * cd[5]) / det,
            cd[0], cd[1], cd[3], cd[4]};
    double a[TERMS], b[TERMS], sums[3];
    uint64_t used, size;
    uint8_t text[RECORD];
    uint32_t no = moorspindle_fit_sip(LISTS(n), rows.snr, n, wcs, 6, 3, a, TERMS, b, TERMS, &used,
            sums, 3);
    if (no == 0)
        no = moorspindle_write_record(used, wcs, 6, 3, a, TERMS, b, TERMS, sums, 3, text, RECORD, &size);
    if (no != 0)
        return no;
    printf("rms %.3f pixels, %.3f before\n\n", sums[1], sums[0]);
    fwrite(text, 1, size, stdout);
    return 0;
}

int main(void)
{
    double cd[6];
    make_stars();
    uint32_t no = find_pairs();
    if (no == 0)
        no = find_plate(cd);
    if (no == 0)
        no = print_record(cd);
    if (no != 0)
        printf("refused: number %" PRIu32 "\n", no);
    return no != 0;
}
