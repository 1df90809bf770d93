/* Makes frame.txt: a frame of a survey camera, and the stars of a catalogue where it looks.

   A picture of 4,096 pixels, 1.1 arcsec each, turned by 22.6 degrees, bent by a polynomial of order 3,
   a few pixels in the corners. 85 stars are seen; 15 detections are none; 15 stars of the catalogue
   are not seen, since they lie past the edges or are lost. A detection is off by 0.15 pixel, a faint
   one by more; snr falls from 300 to 5.

   Only sums, products, quotients and roots are used, each rounded once, so that the same seed gives
   the same bytes on every host. The seed is the first word of the command, or 13: there three
   detections get votes for a star that is not theirs, so that the run has rows to turn off. */
#include <inttypes.h>
#include <math.h>
#include <stdio.h>
#include <stdlib.h>
#include <string.h>

enum { SEEN = 85, FALSE_ONES = 15, LOST = 15, SIDE = 4096, RIM = 300 };
enum { DETECTIONS = SEEN + FALSE_ONES, STARS = SEEN + LOST };

static const double SCALE = 1.1;                           /* arcsec a pixel */
static const double COS = 12.0 / 13.0, SIN = 5.0 / 13.0;   /* of the turn */
static const double A[] = {2.1e-7, -1.3e-7, 0.6e-7, 6.0e-11, 0.8e-11, 5.2e-11, -0.7e-11};
static const double B[] = {-0.9e-7, 1.8e-7, -1.5e-7, 0.5e-11, 6.1e-11, -0.9e-11, 5.6e-11};

struct star { int64_t id; double xi, eta; };
struct detection { double x, y; int64_t of; };             /* of: its star, 0 for none */

static uint64_t word;

static uint64_t next(void)
{
    return word = word * UINT64_C(6364136223846793005) + UINT64_C(1442695040888963407);
}

static double between(double low, double high)
{
    return low + (high - low) * ((double)(next() >> 11) / 9007199254740992.0);
}

/* Twelve draws make a normal number, near enough. */
static double normal(void)
{
    double sum = -6.0;
    for (int i = 0; i < 12; i++)
        sum += between(0.0, 1.0);
    return sum;
}

/* How far a pixel stands off its ideal place on one axis, as the SIP fit has it. */
static double bend(const double c[7], double u, double v)
{
    return c[0] * u * u + c[1] * u * v + c[2] * v * v
            + c[3] * u * u * u + c[4] * u * u * v + c[5] * u * v * v + c[6] * v * v * v;
}

/* The star whose light falls on a pixel: xi falls along x and eta along y, but for the turn. */
static struct star star_at(double x, double y)
{
    double u = x - SIDE / 2, v = y - SIDE / 2, degrees = SCALE / 3600.0;
    double bu = u - bend(A, u, v), bv = v - bend(B, u, v);
    return (struct star){(int64_t)(next() >> 2),
            -degrees * (COS * bu - SIN * bv), -degrees * (SIN * bu + COS * bv)};
}

/* The snr of the detection of this rank, brightest first. */
static double snr_of(int rank)
{
    double t = (double)rank / (DETECTIONS - 1);
    return 300.0 / (1.0 + 59.0 * t * t);
}

static uint64_t bits(double x)
{
    uint64_t pattern;
    memcpy(&pattern, &x, sizeof pattern);
    return pattern;
}

static int by_id(const void *a, const void *b)
{
    int64_t one = ((const struct star *)a)->id, other = ((const struct star *)b)->id;
    return (one > other) - (one < other);
}

/* Whether the next of those left is one of the wanted: each is as likely as the others. */
static int drawn(int wanted, int left)
{
    return between(0.0, left) < wanted;
}

/* Detections by rank, and the stars that are seen. */
static void look(struct detection found[DETECTIONS], struct star stars[STARS])
{
    int seen = 0;
    for (int rank = 0; rank < DETECTIONS; rank++) {
        double snr = snr_of(rank), x = between(0.0, SIDE), y = between(0.0, SIDE);
        found[rank] = (struct detection){x, y, 0};
        if (!drawn(SEEN - seen, DETECTIONS - rank))
            continue;
        double noise = 0.15 * sqrt(1.0 + 400.0 / (snr * snr));
        stars[seen] = star_at(x, y);
        found[rank].x += noise * normal();
        found[rank].y += noise * normal();
        found[rank].of = stars[seen].id;
        seen++;
    }
    for (int i = SEEN; i < STARS; i++) {
        double x = between(-RIM, SIDE + RIM), y = between(-RIM, SIDE + RIM);
        stars[i] = star_at(x, y);
    }
    qsort(stars, STARS, sizeof stars[0], by_id);
}

/* The place of a detection in the detector's list, which goes by rows. */
static int place(const struct detection found[DETECTIONS], int rank)
{
    int before = 0;
    for (int i = 0; i < DETECTIONS; i++)
        before += found[i].y < found[rank].y;
    return before;
}

int main(int argc, char **argv)
{
    struct detection found[DETECTIONS];
    struct star stars[STARS];
    word = argc > 1 ? strtoull(argv[1], NULL, 10) : 13;
    look(found, stars);
    printf("# A made frame, by make_frame.c: detections and catalogue stars of one field.\n"
           "# picture: its width and height in pixels, and the arcsec of a pixel that are expected.\n"
           "# detection: its place in the detector's list, which goes by rows; x, y in pixels; snr.\n"
           "#     The brightest come first. A remark names its star, 0 for none; no program reads it.\n"
           "# star: catalogue id; xi, eta, projected, in degrees. They stand by id.\n"
           "# A float is the 16 hex digits of its bits.\n");
    printf("picture=%d,%d,%016" PRIx64 "\n", SIDE, SIDE, bits(SCALE));
    for (int i = 0; i < DETECTIONS; i++)
        printf("detection=%d,%016" PRIx64 ",%016" PRIx64 ",%016" PRIx64 " # of %" PRId64 "\n",
                place(found, i), bits(found[i].x), bits(found[i].y), bits(snr_of(i)), found[i].of);
    for (int i = 0; i < STARS; i++)
        printf("star=%" PRId64 ",%016" PRIx64 ",%016" PRIx64 "\n",
                stars[i].id, bits(stars[i].xi), bits(stars[i].eta));
    return 0;
}
