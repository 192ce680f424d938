/* Strips standard input of its terminal escapes, to standard output.
 *
 * Usage: filter [BYTES]     takes 1 to 4096 bytes at once, 4096 with no word
 *
 * What comes is handed on before more is waited for, so a line is seen when it is written. Ends
 * with status 1 where reading or writing fails, with 2 for other words, and says so. */
#define _POSIX_C_SOURCE 200809L
#include "ansi_strip.h"
#include "common.h"

static ansi_strip state; /* of zero bytes, which begins a stream */
static unsigned char room[MOST];

/* Writes the text of the next bytes of the stream. */
static bool strip(const unsigned char *piece, size_t count)
{
    while (count > 0) {
        size_t taken, written;
        if (!ansi_strip_feed(&state, piece, count, room, sizeof room, &taken, &written))
            return false;
        if (!write_all(room, written))
            return false;
        piece += taken;
        count -= taken;
    }
    return true;
}

/* Writes U+FFFD where a character is begun. */
static bool end(void)
{
    size_t written;
    return ansi_strip_end(&state, room, sizeof room, &written) && write_all(room, written);
}

int main(int argc, char **argv)
{
    return run("filter", argc, argv, strip, end);
}
