/* Prints the titles that a stream of terminal output sets, one on a line: OSC 0 and OSC 2.
 *
 * Usage: titles < RECORDING
 *
 * Ends with status 1 where reading or writing fails. A title has no byte below 20: the parser drops these. It may have DEL, U+0080 to
 * U+009F, which some terminals take for controls, and bytes that are no UTF-8. */
#include "ansi_events.h"

#include <stdio.h>
#include <string.h>

static ansi_events state; /* of zero bytes, which begins a stream */
static unsigned char bytes[4096], room[65536];
static ansi_event events[4096];

/* The title that the event sets, or NULL. */
static const unsigned char *title_of(const ansi_event *event, size_t *length)
{
    const unsigned char *parts = room + event->start;

    if (event->kind != ANSI_EVENTS_OSC || event->length < 2)
        return NULL;
    if (memcmp(parts, "0;", 2) != 0 && memcmp(parts, "2;", 2) != 0)
        return NULL;
    *length = event->length - 2; /* what stands after a further `;` belongs to it */
    return parts + 2;
}

int main(void)
{
    size_t count, at, event, length, taken, written, used;
    const unsigned char *title;

    while ((count = fread(bytes, 1, sizeof bytes, stdin)) > 0)
        for (at = 0; at < count; at += taken) {
            if (!ansi_events_feed(&state, bytes + at, count - at, events, 4096, room, sizeof room, &taken, &written, &used))
                return 1;
            for (event = 0; event < written; event++)
                if ((title = title_of(&events[event], &length)) != NULL) {
                    fwrite(title, 1, length, stdout);
                    putchar('\n');
                }
        }
    return ferror(stdin) || fflush(stdout) == EOF || ferror(stdout);
}
