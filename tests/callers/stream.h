/* What safe.c, lf.c and html.c share: a stream that goes on in one room, by a state whose type they name as STATE, and by the functions that
 * they name as FEED and END. */
#include "expect.h"

#include <string.h>

/* The types: with another one this is a warning, and warnings are errors. */
static bool (*const feed)(STATE *, const unsigned char *, size_t, unsigned char *, size_t, size_t *, size_t *) = FEED;
static bool (*const end)(STATE *, unsigned char *, size_t, size_t *) = END;

enum { AFTER = 64, SIZE = 16384 };

static unsigned char room[SIZE + AFTER];

/* A state, and bytes after it that no call may touch. */
struct guarded {
    STATE state;
    unsigned char after[AFTER];
};

static struct guarded it;
static size_t taken, written;

/* The stream goes on with this text, in all of the room. */
static bool goes_on(const char *text, size_t size)
{
    memset(room, 0x7E, sizeof room);
    taken = written = 7;
    return feed(&it.state, (const unsigned char *)text, strlen(text), room, size, &taken, &written);
}

static bool is_written(const char *text)
{
    return written == strlen(text) && memcmp(room, text, written) == 0 && are(room + written, AFTER, 0x7E);
}

static bool ends(size_t size)
{
    memset(room, 0x7E, sizeof room);
    written = 7;
    return end(&it.state, room, size, &written);
}

/* So much room is refused: nothing is taken or written, and the state is as it was. */
static void refuses(size_t size)
{
    STATE before = it.state;

    expect(!goes_on("x", size) && taken == 0 && written == 0, "little room is refused");
    expect(memcmp(&it.state, &before, sizeof before) == 0, "the state is as it was");
    expect(are(room, sizeof room, 0x7E), "the room is as it was");
}

static void refuses_to_end(size_t size)
{
    STATE before = it.state;

    expect(!ends(size) && written == 0 && are(room, sizeof room, 0x7E), "little room for an end is refused");
    expect(memcmp(&it.state, &before, sizeof before) == 0, "the state is as it was");
}

/* Whatever a state holds, behind CAN `<x` is this text; and where nothing is to be closed, nothing is written at the end. */
static void any_bytes_are_a_state(const char *text, bool closes)
{
    unsigned char *bytes = (unsigned char *)&it.state;
    size_t at, length = strlen(text);
    unsigned seed = 1, turn;

    for (turn = 0; turn < 400; turn++) {
        for (at = 0; at < sizeof it.state; at++)
            bytes[at] = turn < 256 ? (unsigned char)turn : (unsigned char)((seed = seed * 1103515245 + 12345) >> 16);
        memset(it.after, 0xA5, AFTER);
        expect(goes_on("\030<x", SIZE) && taken == 3, "any bytes are a state");
        expect(written >= length && memcmp(room + written - length, text, length) == 0, "its text is written");
        expect(are(it.after, AFTER, 0xA5), "what follows the state is as it was");
        expect(ends(SIZE) && (closes || written == 0), "it has an end");
    }
}
