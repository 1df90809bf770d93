/* Makes frames of cameras that bend the picture, and takes each to its record by the library.

   There are six frames of each order 2..5, and the smallest one, of the scope's coefficient. A
   camera has a plate, turned and of either parity, and bends by every term up to the order, some
   pixels in the corners. It sees 60 to 100 stars, each up to a tenth of a pixel off, and twelve of
   them in the outer tenth of both sides. As in the pipeline, the plate is fitted to all of them,
   and then the distortion over it.

   The first word is a folder. NAME.record in it gets the text as the library wrote it, NAME.stars
   the side of the picture, the centre of the plane in degrees, and the stars: pixel, counted from
   0, right ascension and declination in degrees. The second word is the seed. */
#include "moorspindle.h"

#include <inttypes.h>
#include <math.h>
#include <stdio.h>
#include <stdlib.h>

enum { MOST = 100, TERMS = 18, RECORD = 1065, EACH = 6, IN_CORNERS = 12 };

static const double DEGREE = 0.017453292519943295; /* in radians */

struct point { double x, y; };

static struct frame {
    uint32_t order;
    double side;                 /* pixels */
    struct point centre;         /* right ascension and declination, degrees */
    double plate[4];             /* degrees a pixel */
    double bend[2][TERMS];       /* pixels, at half the side off the middle */
    double px[MOST], py[MOST], ra[MOST], dec[MOST], xi[MOST], eta[MOST], snr[MOST];
    size_t stars;
} frame;

#define ROWS(px, py, n) px, n, py, n, frame.xi, n, frame.eta, n

/* ---- draws */

static uint64_t word;

static double between(double low, double high)
{
    word = word * UINT64_C(6364136223846793005) + UINT64_C(1442695040888963407);
    return low + (high - low) * ((double)(word >> 11) / 9007199254740992.0);
}

/* ---- the sky */

/* The point of the sky that a point of the plane shows, all in degrees. */
static struct point sky_of(struct point plane)
{
    double xi = plane.x * DEGREE, eta = plane.y * DEGREE;
    double sine = sin(frame.centre.y * DEGREE), cosine = cos(frame.centre.y * DEGREE);
    double outward = cosine - eta * sine, up = sine + eta * cosine;
    return (struct point){frame.centre.x + atan2(xi, outward) / DEGREE,
            atan2(up, hypot(xi, outward)) / DEGREE};
}

/* The gnomonic projection about the centre. */
static struct point plane_of(struct point sky)
{
    double sine = sin(frame.centre.y * DEGREE), cosine = cos(frame.centre.y * DEGREE);
    double s = sin(sky.y * DEGREE), c = cos(sky.y * DEGREE);
    double turn = (sky.x - frame.centre.x) * DEGREE, toward = s * sine + c * cosine * cos(turn);
    return (struct point){c * sin(turn) / toward / DEGREE,
            (s * cosine - c * sine * cos(turn)) / toward / DEGREE};
}

/* ---- the camera */

/* A camera of this order: declinations, sides and parities differ from frame to frame. */
static void draw_camera(uint32_t order, int number)
{
    static const double declinations[EACH] = {-66.0, -31.5, -4.25, 12.0, 47.0, 68.5};
    double side = number % 3 == 0 ? 4096.0 : 2048.0, parity = number % 2 == 0 ? 1.0 : -1.0;
    double scale = between(3.0, 30.0) * 2048.0 / side / 3600.0;
    double turn = between(0.0, 360.0) * DEGREE;
    frame.order = order;
    frame.side = side;
    frame.centre = (struct point){floor(between(0.0, 360.0)), declinations[number]};
    frame.plate[0] = -scale * parity * cos(turn);
    frame.plate[1] = scale * sin(turn);
    frame.plate[2] = scale * parity * sin(turn);
    frame.plate[3] = scale * cos(turn);
    for (int axis = 0; axis < 2; axis++)
        for (int i = 0; i < TERMS; i++)
            frame.bend[axis][i] = between(-3.0, 3.0);
}

/* How far a pixel stands off its ideal place on one axis, at s and t in halves of the side. */
static double bend(const double terms[TERMS], double s, double t)
{
    double sum = 0.0;
    for (uint32_t degree = 2; degree <= frame.order; degree++)
        for (uint32_t q = 0; q <= degree; q++)
            sum += *terms++ * moorspindle_power(s, degree - q) * moorspindle_power(t, q);
    return sum;
}

/* The star whose light falls on a pixel. */
static struct point star_at(double x, double y)
{
    double half = frame.side / 2.0, u = x - half, v = y - half;
    double s = u / half, t = v / half;
    u -= bend(frame.bend[0], s, t), v -= bend(frame.bend[1], s, t);
    return sky_of((struct point){frame.plate[0] * u + frame.plate[1] * v,
            frame.plate[2] * u + frame.plate[3] * v});
}

/* A place on the picture; the first ones go round its corners. */
static struct point draw_pixel(size_t number)
{
    double side = frame.side, rim = number < IN_CORNERS ? side / 10.0 : side;
    struct point pixel = {between(0.0, rim), between(0.0, rim)};
    if (number < IN_CORNERS && number % 2 == 1)
        pixel.x = side - pixel.x;
    if (number < IN_CORNERS && number / 2 % 2 == 1)
        pixel.y = side - pixel.y;
    return pixel;
}

static void draw_stars(void)
{
    frame.stars = (size_t)between(60.0, MOST + 1);
    for (size_t i = 0; i < frame.stars; i++) {
        struct point pixel = draw_pixel(i), sky = star_at(pixel.x, pixel.y);
        struct point plane = plane_of(sky);
        frame.px[i] = pixel.x + between(-0.1, 0.1), frame.py[i] = pixel.y + between(-0.1, 0.1);
        frame.ra[i] = sky.x, frame.dec[i] = sky.y;
        frame.xi[i] = plane.x, frame.eta[i] = plane.y;
        frame.snr[i] = between(20.0, 100.0);
    }
}

/* ---- the library's calls */

/* The plate of all stars, about the pixel that it takes to the centre. */
static uint32_t fit_plate(double wcs[6])
{
    double px[MOST], py[MOST], weights[MOST], cd[6], half = frame.side / 2.0;
    uint8_t mask[MOST];
    size_t n = frame.stars;
    for (size_t i = 0; i < n; i++) {
        px[i] = frame.px[i] - half, py[i] = frame.py[i] - half;
        weights[i] = frame.snr[i] * frame.snr[i];
        mask[i] = 1;
    }
    uint32_t no = moorspindle_fit_cd_weighted(ROWS(px, py, n), mask, n, weights, n, cd, 6);
    if (no != 0)
        return no;
    double det = cd[0] * cd[4] - cd[1] * cd[3];
    wcs[0] = half + (cd[1] * cd[5] - cd[4] * cd[2]) / det;
    wcs[1] = half + (cd[3] * cd[2] - cd[0] * cd[5]) / det;
    wcs[2] = cd[0], wcs[3] = cd[1], wcs[4] = cd[3], wcs[5] = cd[4];
    return 0;
}

/* The record of the distortion over a plate. */
static uint32_t find_record(const double wcs[6], uint8_t text[RECORD], uint64_t *size)
{
    double a[TERMS], b[TERMS], sums[3];
    size_t n = frame.stars, terms = (frame.order + 1) * (frame.order + 2) / 2 - 3;
    uint64_t rows;
    uint32_t no = moorspindle_fit_sip(ROWS(frame.px, frame.py, n), frame.snr, n, wcs, 6,
            frame.order, a, terms, b, terms, &rows, sums, 3);
    if (no == 0)
        no = moorspindle_write_record(rows, wcs, 6, frame.order, a, terms, b, terms, sums, 3,
                text, RECORD, size);
    return no;
}

/* ---- files */

static FILE *open_file(const char *folder, const char *name, const char *kind)
{
    char path[4096];
    snprintf(path, sizeof path, "%s/%s.%s", folder, name, kind);
    FILE *file = fopen(path, "wb");
    if (file == NULL) {
        fprintf(stderr, "frames: %s cannot be written\n", path);
        exit(2);
    }
    return file;
}

/* Writes the record over a plate, and so many of the stars. */
static uint32_t write_frame(const char *folder, const char *name, const double wcs[6],
        size_t stars)
{
    uint8_t text[RECORD];
    uint64_t size;
    uint32_t no = find_record(wcs, text, &size);
    if (no != 0)
        return no;
    FILE *file = open_file(folder, name, "record");
    fwrite(text, 1, size, file);
    fclose(file);
    file = open_file(folder, name, "stars");
    fprintf(file, "side=%.17g\ncentre=%.17g,%.17g\n", frame.side, frame.centre.x, frame.centre.y);
    for (size_t i = 0; i < stars; i++)
        fprintf(file, "star=%.17g,%.17g,%.17g,%.17g\n",
                frame.px[i], frame.py[i], frame.ra[i], frame.dec[i]);
    fclose(file);
    return 0;
}

/* The unit plate, and six pixels that are half the square of u off in x: a_2_0 is solved as 0.5.
   The first, (2, 0), is the corner of a picture of two pixels, and its star is the centre. */
static uint32_t write_smallest(const char *folder)
{
    static const double wcs[] = {0, 0, 1, 0, 0, 1};
    frame = (struct frame){.order = 2, .side = 2.0, .centre = {10.0, 20.0}, .stars = 6};
    for (size_t i = 0; i < frame.stars; i++) {
        frame.px[i] = i % 2 == 0 ? 2.0 : -2.0;
        frame.py[i] = i < 2 ? 0.0 : i < 4 ? 2.0 : -2.0;
        frame.xi[i] = frame.px[i] - 0.5 * frame.px[i] * frame.px[i], frame.eta[i] = frame.py[i];
        frame.snr[i] = 1.0;
        struct point sky = sky_of((struct point){frame.xi[i], frame.eta[i]});
        frame.ra[i] = sky.x, frame.dec[i] = sky.y;
    }
    return write_frame(folder, "smallest", wcs, 1);
}

static uint32_t write_drawn(const char *folder, uint32_t order, int number)
{
    char name[32];
    double wcs[6];
    draw_camera(order, number);
    draw_stars();
    snprintf(name, sizeof name, "order_%" PRIu32 "_%d", order, number + 1);
    uint32_t no = fit_plate(wcs);
    return no != 0 ? no : write_frame(folder, name, wcs, frame.stars);
}

int main(int argc, char **argv)
{
    if (argc != 3) {
        fprintf(stderr, "frames: a folder and a seed are wanted\n");
        return 2;
    }
    word = strtoull(argv[2], NULL, 10);
    uint32_t no = write_smallest(argv[1]);
    for (uint32_t order = 2; order <= 5 && no == 0; order++)
        for (int number = 0; number < EACH && no == 0; number++)
            no = write_drawn(argv[1], order, number);
    if (no != 0)
        fprintf(stderr, "frames: refused, number %" PRIu32 "\n", no);
    return no != 0;
}
