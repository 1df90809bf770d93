/* From quads to a score, from C: each answer, and every byte of all that is lent, beside what it
   must be. */
#include <math.h>
#include <stdint.h>

/* What the calls write into, and what must stand there afterwards. */
struct lent {
    double px_x[3], px_y[3], ra[3], dec[3], snr[3];
    double affine[7];
    uint64_t count, table[5];
    uint32_t votes[3];
    uint8_t matches[20];
};

#include "lent.h"

/* a quad, and two of the catalogue: one a hundredth off, one that is the same */
static const uint8_t image[] = {0, 3, 1, 2};
static const double hash[] = {0.5, -0.5, 0.5, 0.5};
static const uint8_t crowd[48004];
static const uint8_t catalogue[] = {4, 5, 6, 7, 0, 1, 2, 3};
static const double hashes[] = {0.5, -0.5, 0.5, 0.51, 0.5, -0.5, 0.5, 0.5};
static const double far[48004];

/* the catalogue's index, with a word past it; with the places turned; and that of the first quad alone */
static const uint64_t table[] = {0x022601c202260226, 0x022601c202260227, 1, 0, 77};
static const uint64_t turned[] = {0x022601c202260226, 0x022601c202260227, 0, 1};
static const uint64_t fewer[] = {0x022601c202260227, 0, 1, 0};

/* two matches for two detections: 0 and 7 have three votes, 1 and 7 two, 1 and 9 two */
static const uint8_t votes[] = {0, 0, 0, 1, 0, 0, 0, 0, 1, 1, 1, 255, 0, 1, 1, 0};
static const double det_x[] = {10, 20}, det_y[] = {11, 21}, det_snr[] = {5, 6};
static const uint32_t ids[] = {0, 1}, missing[] = {0, 2};
static const int64_t sky[] = {7, 9}, results[] = {7, 9, 7};
static const double ra[] = {100, 200, 300}, dec[] = {-1, -2, -3};

/* a plate of three rows, and one that is off by 10 pixels */
static const double px[] = {0, 1, 0, 0}, py[] = {0, 0, 1, 0};
static const double xi[] = {0, 1, 0, 10}, eta[] = {0, 0, 1, 0};
static const double unit[] = {1, 0, 0, 0, 1, 0};
static const double bad[] = {0, 1, NAN, 1};
static const double many[101];


#define IMAGE image, 4, hash, 4
#define CATALOGUE catalogue, 8, hashes, 8
#define DETECTIONS det_x, 2, det_y, 2, det_snr, 2
#define RESULTS results, 3, ra, 3, dec, 3
#define PAIRS(n) lent.px_x, 3, lent.px_y, 3, lent.ra, 3, lent.dec, 3, lent.votes, n, lent.snr, 3, &lent.count
#define ROWS(n) px, n, py, n, xi, n, eta, n

static void matches(void)
{
    static const uint8_t found[] = {0, 3, 1, 2, 0, 1, 2, 3, 0, 3, 1, 2, 4, 5, 6, 7};
    lend();
    memcpy(due.matches, found, sizeof found);
    due.count = 2;
    CALL(0, find_matches, IMAGE, CATALOGUE, lent.matches, 20, &lent.count);
    REFUSED(1, find_matches, crowd, 48004, hash, 3, CATALOGUE, lent.matches, 20, &lent.count);
    REFUSED(2, find_matches, image, 3, hash, 4, CATALOGUE, lent.matches, 20, &lent.count);
    REFUSED(7, find_matches, IMAGE, CATALOGUE, lent.matches, 15, &lent.count);
}

static void an_index(void)
{
    lend();
    memcpy(due.table, table, 4 * sizeof *table);
    CALL(0, build_hash_index, hashes, 8, lent.table, 5);
    REFUSED(1, build_hash_index, far, 48004, lent.table, 5);
    REFUSED(2, build_hash_index, hashes, 7, lent.table, 3);
    REFUSED(7, build_hash_index, hashes, 8, lent.table, 3);
}

static void matches_by_index(void)
{
    static const uint8_t found[] = {0, 3, 1, 2, 0, 1, 2, 3, 0, 3, 1, 2, 4, 5, 6, 7};
    lend();
    memcpy(lent.table, table, sizeof table), memcpy(due.table, table, sizeof table);
    memcpy(due.matches, found, sizeof found);
    due.count = 2;
    CALL(0, find_matches_indexed, IMAGE, CATALOGUE, lent.table, 4, lent.matches, 20, &lent.count);
    CALL(0, find_matches_indexed, IMAGE, CATALOGUE, lent.table, 5, lent.matches, 16, &lent.count);
    REFUSED(1, find_matches_indexed, crowd, 48004, hash, 3, CATALOGUE, turned, 4, lent.matches, 20, &lent.count);
    REFUSED(2, find_matches_indexed, IMAGE, catalogue, 8, hashes, 7, turned, 4, lent.matches, 20, &lent.count);
    REFUSED(11, find_matches_indexed, IMAGE, CATALOGUE, table, 3, lent.matches, 20, &lent.count);
    REFUSED(11, find_matches_indexed, IMAGE, CATALOGUE, turned, 4, lent.matches, 20, &lent.count);
    REFUSED(11, find_matches_indexed, IMAGE, CATALOGUE, fewer, 4, lent.matches, 15, &lent.count);
    REFUSED(11, find_matches_indexed, IMAGE, catalogue, 4, hashes, 4, table, 4, lent.matches, 20, &lent.count);
    REFUSED(7, find_matches_indexed, IMAGE, CATALOGUE, table, 4, lent.matches, 15, &lent.count);
}

/* More matches than a search by the index keeps from its count: both searches write the same. Of 400
   quads 134 are of one shape and 266 of another. */
static void many_matches(void)
{
    enum { NUMBERS = 1600, FOUND = 134 * 134 + 266 * 266 };
    static double shapes[NUMBERS];
    static uint8_t places[NUMBERS], plain[8 * FOUND], indexed[8 * FOUND];
    static uint64_t words[NUMBERS / 2];
    for (int i = 0; i < NUMBERS; i++)
        shapes[i] = i / 4 % 3 == 0 ? 0.5 : -0.5, places[i] = (uint8_t)(i * 7);
    lend();
    CALL(0, build_hash_index, shapes, NUMBERS, words, NUMBERS / 2);
    due.count = FOUND;
    CALL(0, find_matches, places, NUMBERS, shapes, NUMBERS, places, NUMBERS, shapes, NUMBERS,
            plain, sizeof plain, &lent.count);
    CALL(0, find_matches_indexed, places, NUMBERS, shapes, NUMBERS, places, NUMBERS, shapes, NUMBERS,
            words, NUMBERS / 2, indexed, sizeof indexed, &lent.count);
    wrong += memcmp(plain, indexed, sizeof plain) != 0;
}

static void pairs(void)
{
    lend();
    due.px_x[0] = 10, due.px_y[0] = 11, due.snr[0] = 5;
    due.ra[0] = 300, due.dec[0] = -3; /* of the id's two results the last */
    due.votes[0] = 3, due.count = 1;
    CALL(0, extract_pairs, votes, 16, DETECTIONS, ids, 2, sky, 2, RESULTS, PAIRS(3));
    REFUSED(1, extract_pairs, votes, 16, many, 101, det_y, 2, det_snr, 2, ids, 2, sky, 2, RESULTS, PAIRS(3));
    REFUSED(2, extract_pairs, votes, 15, DETECTIONS, ids, 2, sky, 2, RESULTS, PAIRS(3));
    REFUSED(3, extract_pairs, votes, 16, bad + 2, 2, det_y, 2, det_snr, 2, ids, 2, sky, 2, RESULTS, PAIRS(3));
    REFUSED(4, extract_pairs, votes, 16, DETECTIONS, missing, 2, sky, 2, RESULTS, PAIRS(3));
    REFUSED(7, extract_pairs, votes, 16, DETECTIONS, ids, 2, sky, 2, RESULTS, PAIRS(0));
}

static void affines(void)
{
    lend();
    memcpy(due.affine, unit, sizeof unit);
    CALL(0, fit_affine_3pt, ROWS(3), 0, 1, 2, lent.affine, 7);
    REFUSED(1, fit_affine_3pt, many, 101, py, 3, xi, 3, eta, 3, 0, 1, 2, lent.affine, 7);
    REFUSED(2, fit_affine_3pt, px, 3, py, 2, xi, 3, eta, 3, 0, 1, 2, lent.affine, 7);
    REFUSED(3, fit_affine_3pt, bad, 3, py, 3, xi, 3, eta, 3, 0, 1, 2, lent.affine, 7);
    REFUSED(4, fit_affine_3pt, ROWS(3), 0, 1, 3, lent.affine, 5);
    REFUSED(7, fit_affine_3pt, ROWS(3), 0, 1, 1, lent.affine, 5);
    REFUSED(8, fit_affine_3pt, ROWS(3), 0, 1, 1, lent.affine, 6);
    lend();
    due.count = 3; /* an error of exactly the threshold does not agree */
    CALL(0, count_affine_inliers, ROWS(4), unit, 6, 10.0, &lent.count);
    REFUSED(2, count_affine_inliers, ROWS(4), unit, 5, 10.0, &lent.count);
    REFUSED(3, count_affine_inliers, ROWS(4), unit, 6, -1.0, &lent.count);
    lend();
    due.count = 3;
    CALL(0, verify_pairs, ROWS(3), &lent.count);
    lend();
    due.count = 0;
    CALL(0, verify_pairs, ROWS(2), &lent.count);
    REFUSED(3, verify_pairs, bad, 4, py, 4, xi, 4, eta, 4, &lent.count);
}

int main(void)
{
    matches();
    an_index();
    matches_by_index();
    many_matches();
    pairs();
    affines();
    return verdict();
}
