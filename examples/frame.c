/* A whole frame: from the detections of a picture and the stars of a catalogue, which are already
   projected, to the record of the plate. The file is the first word of the command.

   The limits are those of the Rust's drivers: ten neighbours, spines of at least a twentieth of the
   search radius, the picture both ways up, errors of at most 5 pixels in 1,000 trials, weights of
   snr squared. */
#include "moorspindle.h"

#include <inttypes.h>
#include <stdio.h>
#include <string.h>

enum { MOST = MOORSPINDLE_MOST_ROWS, QUADS = MOORSPINDLE_MOST_QUADS, MATCHES = 65536 };
enum { NEIGHBOURS = 10, TRIALS = 1000 };
enum { ORDER = 3, TERMS = 7, RECORD = MOORSPINDLE_MOST_RECORD };

static const double LIMIT = 5.0; /* pixels */

static struct { double width, height, scale; } picture;

/* In the detector's order; ids has the brightest first. */
static struct {
    double x[MOST], y[MOST], snr[MOST];
    uint32_t ids[MOST];
    size_t count;
} detections;

static struct {
    int64_t ids[MOST];
    double xi[MOST], eta[MOST];
    size_t count;
} stars;

static struct quads {
    uint8_t places[4 * QUADS];
    double hashes[4 * QUADS];
    uint64_t count;
} image, catalogue;

static uint64_t table[2 * QUADS]; /* the catalogue's index */

struct rows {
    double px[MOST], py[MOST], xi[MOST], eta[MOST], snr[MOST], weights[MOST];
    uint32_t votes[MOST];
    size_t count;
};

static struct rows rows, kept;
static uint8_t mask[MOST];

#define LISTS(r) (r).px, (r).count, (r).py, (r).count, (r).xi, (r).count, (r).eta, (r).count

/* ---- the file */

static double float_of(uint64_t bits)
{
    double x;
    memcpy(&x, &bits, sizeof x);
    return x;
}

/* Takes a line; 0 where it is not in its form, or there are too many of its kind. */
static int take_line(const char *line)
{
    uint32_t id, width, height;
    int64_t star;
    uint64_t a, b, c;
    if (sscanf(line, "picture=%" SCNu32 ",%" SCNu32 ",%16" SCNx64, &width, &height, &a) == 3) {
        picture.width = width, picture.height = height, picture.scale = float_of(a);
        return 1;
    }
    if (sscanf(line, "detection=%" SCNu32 ",%16" SCNx64 ",%16" SCNx64 ",%16" SCNx64,
                &id, &a, &b, &c) == 4 && id < MOST && detections.count < MOST) {
        detections.x[id] = float_of(a), detections.y[id] = float_of(b);
        detections.snr[id] = float_of(c);
        detections.ids[detections.count++] = id;
        return 1;
    }
    if (sscanf(line, "star=%" SCNd64 ",%16" SCNx64 ",%16" SCNx64, &star, &a, &b) == 3
            && stars.count < MOST) {
        stars.ids[stars.count] = star;
        stars.xi[stars.count] = float_of(a), stars.eta[stars.count] = float_of(b);
        stars.count++;
        return 1;
    }
    return line[0] == '#' || line[0] == '\n';
}

static int read_frame(const char *path)
{
    char line[256];
    FILE *file = fopen(path, "r");
    int good = file != NULL;
    while (good && fgets(line, sizeof line, file) != NULL)
        good = take_line(line);
    if (file != NULL)
        fclose(file);
    if (good)
        printf("frame: %zu detections, %zu catalogue stars\n", detections.count, stars.count);
    return good;
}

/* ---- quads, matches, pairs */

/* A twentieth of the search radius, which is 1.2 times half the picture's diagonal; squared. */
static double least_spine(void)
{
    double width = picture.width, height = picture.height;
    double diagonal = moorspindle_root(width * width + height * height);
    double spine = diagonal * picture.scale / 3600.0 / 2.0 * 1.2 * 0.05;
    return spine * spine;
}

static uint32_t find_quads(const double *x, const double *y, size_t n, struct quads *quads)
{
    return moorspindle_neighbor_quads(x, n, y, n, NEIGHBOURS, least_spine(),
            quads->places, 4 * QUADS, quads->hashes, 4 * QUADS, &quads->count);
}

/* Quads of the picture in degrees about its middle, the brightest first; up is 1 or -1. */
static uint32_t find_image_quads(double up)
{
    double x[MOST], y[MOST], degrees = picture.scale / 3600.0;
    for (size_t i = 0; i < detections.count; i++) {
        uint32_t id = detections.ids[i];
        x[i] = -(detections.x[id] - picture.width / 2.0) * degrees;
        y[i] = up * (detections.y[id] - picture.height / 2.0) * degrees;
    }
    return find_quads(x, y, detections.count, &image);
}

/* Quads of the catalogue, and their index, which serves the picture both ways up. */
static uint32_t find_catalogue_quads(void)
{
    uint32_t no = find_quads(stars.xi, stars.eta, stars.count, &catalogue);
    if (no == 0)
        no = moorspindle_build_hash_index(catalogue.hashes, 4 * catalogue.count, table, 2 * QUADS);
    return no;
}

/* The pairs that the matches of both lists of quads vote for. */
static uint32_t find_pairs(struct rows *pairs, uint64_t *found)
{
    static uint8_t matches[8 * MATCHES];
    size_t n = detections.count, m = stars.count;
    uint64_t count = 0;
    uint32_t no = moorspindle_find_matches_indexed(
            image.places, 4 * image.count, image.hashes, 4 * image.count,
            catalogue.places, 4 * catalogue.count, catalogue.hashes, 4 * catalogue.count,
            table, 2 * QUADS, matches, 8 * MATCHES, found);
    if (no == 0)
        no = moorspindle_extract_pairs(matches, 8 * *found,
                detections.x, n, detections.y, n, detections.snr, n,
                detections.ids, n, stars.ids, m, stars.ids, m, stars.xi, m, stars.eta, m,
                pairs->px, MOST, pairs->py, MOST, pairs->xi, MOST, pairs->eta, MOST,
                pairs->votes, MOST, pairs->snr, MOST, &count);
    pairs->count = count;
    return no;
}

/* Pairs stand by their votes, the most first. */
static void print_attempt(const char *name, uint64_t found, const struct rows *pairs, uint64_t score)
{
    printf("%s: %" PRIu64 " and %" PRIu64 " quads, %" PRIu64 " matches, %zu pairs",
            name, image.count, catalogue.count, found, pairs->count);
    if (pairs->count > 0)
        printf(" of %" PRIu32 " to %" PRIu32 " votes", pairs->votes[0], pairs->votes[pairs->count - 1]);
    printf(", %" PRIu64 " agree on an affine\n", score);
}

/* Tries the picture both ways up, and keeps the pairs of which more agree on an affine. */
static uint32_t find_rows(void)
{
    static struct rows pairs;
    uint64_t best = 0, found, score;
    uint32_t no = find_catalogue_quads();
    for (int flipped = 0; flipped < 2 && no == 0; flipped++) {
        no = find_image_quads(flipped ? 1.0 : -1.0);
        if (no == 0)
            no = find_pairs(&pairs, &found);
        if (no == 0)
            no = moorspindle_verify_pairs(LISTS(pairs), &score);
        if (no != 0)
            return no;
        print_attempt(flipped ? "flipped" : "normal", found, &pairs, score);
        if (score > best)
            best = score, rows = pairs;
    }
    return no;
}

/* ---- the plate */

static size_t rows_on(void)
{
    size_t on = 0;
    for (size_t i = 0; i < rows.count; i++)
        on += mask[i];
    return on;
}

/* The plate of the rows that lie on one, without the far ones. Its pixels are from the middle. */
static uint32_t find_plate(double cd[6])
{
    struct rows mid = rows;
    size_t n = mid.count;
    uint8_t tested;
    uint64_t on;
    for (size_t i = 0; i < n; i++) {
        mid.px[i] -= picture.width / 2.0, mid.py[i] -= picture.height / 2.0;
        rows.weights[i] = mid.weights[i] = mid.snr[i] * mid.snr[i];
    }
    uint32_t no = moorspindle_ransac_fit(LISTS(mid), mid.votes, n, LIMIT, TRIALS,
            mask, n, &tested, &on);
    if (no != 0)
        return no;
    printf("run: %" PRIu64 " of %zu rows within %.0f pixels%s\n", on, n, LIMIT,
            tested ? "" : ", untested");
    no = moorspindle_fit_cd_weighted(LISTS(mid), mask, n, mid.weights, n, cd, 6);
    if (no == 0)
        no = moorspindle_sigma_clip_loop_weighted(LISTS(mid), mask, n, cd, 6, mid.weights, n);
    if (no == 0)
        no = moorspindle_fit_cd_weighted(LISTS(mid), mask, n, mid.weights, n, cd, 6);
    if (no == 0)
        printf("clip: %zu rows on\n", rows_on());
    return no;
}

/* The plate's factors, about the pixel that it takes to the middle of the plane. */
static void find_wcs(const double cd[6], double wcs[6])
{
    double det = cd[0] * cd[4] - cd[1] * cd[3];
    wcs[0] = picture.width / 2.0 + (cd[1] * cd[5] - cd[4] * cd[2]) / det;
    wcs[1] = picture.height / 2.0 + (cd[3] * cd[2] - cd[0] * cd[5]) / det;
    wcs[2] = cd[0], wcs[3] = cd[1], wcs[4] = cd[3], wcs[5] = cd[4];
}

static void keep_rows_on(void)
{
    for (size_t i = 0; i < rows.count; i++) {
        if (mask[i] == 0)
            continue;
        size_t at = kept.count++;
        kept.px[at] = rows.px[i], kept.py[at] = rows.py[i];
        kept.xi[at] = rows.xi[i], kept.eta[at] = rows.eta[i];
        kept.snr[at] = rows.snr[i], kept.weights[at] = rows.weights[i];
    }
}

/* How far the rows that are on lie off the plate. */
static uint32_t print_errors(const double wcs[6])
{
    double x[MOST], y[MOST], px[MOST], rms, weighted;
    uint64_t n;
    uint32_t no = moorspindle_compute_residuals(LISTS(kept), wcs, 6, x, MOST, y, MOST, px, MOST, &n);
    if (no == 0)
        no = moorspindle_rms_error(px, n, &rms);
    if (no == 0)
        no = moorspindle_weighted_rms_error(px, n, kept.weights, kept.count, &weighted);
    if (no != 0)
        return no;
    double area = moorspindle_magnitude(wcs[2] * wcs[5] - wcs[3] * wcs[4]);
    double scale = 3600.0 * moorspindle_root(area);
    printf("plate: %.4f arcsec a pixel, rms %.3f pixels, weighted %.3f\n", scale, rms, weighted);
    return 0;
}

/* What the plate leaves, as a polynomial; and the record of it all. */
static uint32_t print_record(const double wcs[6])
{
    double a[TERMS], b[TERMS], sums[3];
    uint8_t text[RECORD];
    uint64_t used, size;
    uint32_t no = moorspindle_fit_sip(LISTS(kept), kept.snr, kept.count, wcs, 6, ORDER,
            a, TERMS, b, TERMS, &used, sums, 3);
    if (no != 0)
        return no;
    printf("sip: order %d, %" PRIu64 " rows, rms %.3f pixels, weighted %.3f\n\n",
            ORDER, used, sums[1], sums[2]);
    no = moorspindle_write_record(used, wcs, 6, ORDER, a, TERMS, b, TERMS, sums, 3,
            text, RECORD, &size);
    if (no == 0)
        fwrite(text, 1, size, stdout);
    return no;
}

int main(int argc, char **argv)
{
    double cd[6], wcs[6];
    if (argc != 2 || !read_frame(argv[1])) {
        fprintf(stderr, "frame: the file is not there, or not in its form\n");
        return 2;
    }
    uint32_t no = find_rows();
    if (no == 0)
        no = find_plate(cd);
    if (no == 0) {
        find_wcs(cd, wcs);
        keep_rows_on();
        no = print_errors(wcs);
    }
    if (no == 0)
        no = print_record(wcs);
    if (no != 0)
        printf("refused: number %" PRIu32 "\n", no);
    return no != 0;
}
