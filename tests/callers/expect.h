/* What the callers in C share, each of which names itself as CALLER: what does not hold is said and counted. */
#include <stdbool.h>
#include <stddef.h>
#include <stdio.h>

static int failures;

static void expect(bool holds, const char *what)
{
    if (!holds) {
        fprintf(stderr, CALLER ": it does not hold that %s\n", what);
        failures++;
    }
}

static bool are(const unsigned char *bytes, size_t count, unsigned char byte)
{
    size_t at;

    for (at = 0; at < count; at++)
        if (bytes[at] != byte)
            return false;
    return true;
}
