/* For the programs of this folder: what is lent to a call, and what must stand there afterwards.
   It is included after the program's own `struct lent`, whose two instances are `lent` and `due`. */
#include "moorspindle.h"

#include <inttypes.h>
#include <stdio.h>
#include <string.h>

static struct lent lent, due;

static int wrong = 0;

/* Marks every byte, so that one that is written without need shows. */
static void lend(void)
{
    memset(&lent, 0xaa, sizeof lent);
    memcpy(&due, &lent, sizeof due);
}

/* Prints an answer, and counts it where it, or a byte of what was lent, is not as it must be. */
static void check(const char *call, uint32_t got, uint32_t number)
{
    int same = got == number && memcmp(&lent, &due, sizeof due) == 0;
    printf("%-2" PRIu32 " %s%s\n", got, call, same ? "" : "  WRONG");
    wrong += !same;
}

/* The verdict, as the status of the program. */
static int verdict(void)
{
    printf("%d wrong\n", wrong);
    return wrong != 0;
}

/* A call that must answer this number; the second leaves all that is lent as it is. */
#define CALL(number, name, ...) check(#name, moorspindle_##name(__VA_ARGS__), number)
#define REFUSED(number, name, ...) (lend(), CALL(number, name, __VA_ARGS__))
