/* Writes standard input as HTML, to standard output: a fragment for a <pre>.
 *
 * Usage: page [BYTES]     takes 1 to 4096 bytes at once, 4096 with no word
 *
 * What comes is handed on before more is waited for. Ends with status 1 where reading or writing
 * fails, with 2 for other words, and says so. */
#define _POSIX_C_SOURCE 200809L
#include "ansi_html.h"
#include "common.h"

static ansi_html state; /* of zero bytes, which begins a stream of the usual styling */
static unsigned char room[4 * MOST];

/* Writes the HTML of the next bytes of the stream. */
static bool show(const unsigned char *piece, size_t count)
{
    while (count > 0) {
        size_t taken, written;
        if (!ansi_html_feed(&state, piece, count, room, sizeof room, &taken, &written))
            return false;
        if (!write_all(room, written))
            return false;
        piece += taken;
        count -= taken;
    }
    return true;
}

/* Writes what closes it. */
static bool end(void)
{
    size_t written;

    return ansi_html_end(&state, room, sizeof room, &written) && write_all(room, written);
}

int main(int argc, char **argv)
{
    return run("page", argc, argv, show, end);
}
