/* Writes standard input as text that hides nothing, to standard output: what ansi2text --safe writes.
 *
 * Usage: safe [BYTES]     takes 1 to 4096 bytes at once, 4096 with no word
 *
 * What comes is handed on before more is waited for. Ends with status 1 where reading or writing
 * fails, with 2 for other words, and says so. */
#define _POSIX_C_SOURCE 200809L
#include "ansi_safe.h"
#include "common.h"

static ansi_safe state; /* of zero bytes, which begins a stream */
static unsigned char room[4 * MOST];

/* Writes the text of the next bytes of the stream. */
static bool show(const unsigned char *piece, size_t count)
{
    while (count > 0) {
        size_t taken, written;
        if (!ansi_safe_feed(&state, piece, count, room, sizeof room, &taken, &written))
            return false;
        if (!write_all(room, written))
            return false;
        piece += taken;
        count -= taken;
    }
    return true;
}

/* Writes what still waits, and closes hidden text. */
static bool end(void)
{
    size_t written;

    return ansi_safe_end(&state, room, sizeof room, &written) && write_all(room, written);
}

int main(int argc, char **argv)
{
    return run("safe", argc, argv, show, end);
}
