/* The float calls from C: each answer beside the one that it must be, bit for bit. */
#include "moorspindle.h"

#include <float.h>
#include <inttypes.h>
#include <math.h>
#include <stdio.h>
#include <string.h>

static int wrong = 0;

static uint64_t bits(double x)
{
    uint64_t b;
    if (x != x) /* one pattern stands for all NaNs */
        return UINT64_C(0x7ff8000000000000);
    memcpy(&b, &x, sizeof b);
    return b;
}

static void floats(const char *call, double got, double due)
{
    int same = bits(got) == bits(due);
    printf("%-22s %016" PRIx64 "  %.17g%s\n", call, bits(got), got, same ? "" : "  WRONG");
    wrong += !same;
}

static void numbers(const char *call, int32_t got, int32_t due)
{
    int same = got == due;
    printf("%-22s %" PRId32 "%s\n", call, got, same ? "" : "  WRONG");
    wrong += !same;
}

#define FLOAT(call, due) floats(#call, moorspindle_##call, due)
#define NUMBER(call, due) numbers(#call, moorspindle_##call, due)

int main(void)
{
    const double least = 0x1p-1074; /* the least subnormal */

    FLOAT(magnitude(-2.5), 2.5);
    FLOAT(magnitude(-0.0), 0.0);
    FLOAT(magnitude(-INFINITY), INFINITY);
    FLOAT(magnitude(NAN), NAN);

    NUMBER(floor(2.75), 2);
    NUMBER(floor(-0.0), 0);
    NUMBER(floor(-0.5), -1);
    NUMBER(floor(1e300), INT32_MAX);
    NUMBER(floor(-1e300), INT32_MIN);
    NUMBER(floor(NAN), 0);

    FLOAT(root(2.0), 0x1.6a09e667f3bcdp+0);
    FLOAT(root(DBL_MAX), 0x1.fffffffffffffp+511);
    FLOAT(root(least), 0x1p-537);
    FLOAT(root(3 * least), 0x1.bb67ae8584caap-537);
    FLOAT(root(-0.0), -0.0);
    FLOAT(root(-1.0), NAN);
    FLOAT(root(INFINITY), INFINITY);

    FLOAT(power(1.5, 5), 7.59375);
    FLOAT(power(-2.0, 3), -8.0);
    FLOAT(power(0.0, 0), 1.0);
    FLOAT(power(NAN, 0), 1.0);
    FLOAT(power(1e200, 2), INFINITY);

    printf("%d wrong\n", wrong);
    return wrong != 0;
}
