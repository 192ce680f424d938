/* What include/ansi_strip.h declares, and what a caller rests on: sizes, numbers, types, a false
 * answer, ansi_strip_init, a piece of 4,096 bytes. tests/library compiles it as C and as C++, and
 * with the sanitizers. Says what is wrong on standard error and ends with status 1. */
#include "ansi_strip.h"
#include "ansi_strip.h" /* (a second time: it guards itself) */
#include "ansi_events.h" /* (and these stand beside it) */
#include "ansi_html.h"

#define CALLER "header.c"
#include "expect.h"

#include <assert.h>
#include <stdio.h>
#include <stdlib.h>
#include <string.h>

static_assert(sizeof(ansi_strip) == 1056, "a state has 1,056 bytes");
static_assert(sizeof(struct ansi_strip) == sizeof(ansi_events), "the state is that of the events");
static_assert(offsetof(ansi_strip, length) == 0, "length is first");
static_assert(sizeof(((ansi_strip *)0)->length) == 8, "length is a size_t of 8 bytes");
static_assert(offsetof(ansi_strip, pending) == 8, "pending stands after length");
static_assert(sizeof(((ansi_strip *)0)->pending) == 1042, "1,042 bytes are pending at most");
static_assert(ANSI_STRIP_LEAST_ROOM == 6, "U+FFFD twice");
static_assert(ANSI_STRIP_END_ROOM == 3, "U+FFFD");
static_assert(ANSI_STRIP_ROOM(0) == 3, "three bytes for each, and three more");
static_assert(ANSI_STRIP_ROOM(4096) == 12291, "three bytes for each, and three more");
static_assert(ANSI_STRIP_ROOM(1 + 1) == 9, "the count stands in brackets");
static_assert(2 * ANSI_STRIP_ROOM(1) == 12, "and so does the whole");
static_assert(sizeof(ANSI_STRIP_ROOM(1)) == sizeof(size_t), "it is a size");
static_assert(ANSI_STRIP_ROOM(0x60000000) == 0x120000003, "also of a large count");

/* The types: with another one this is a warning, and warnings are errors. */
static void (*const init)(ansi_strip *) = ansi_strip_init;
static bool (*const feed)(ansi_strip *, const unsigned char *, size_t, unsigned char *, size_t,
                          size_t *, size_t *) = ansi_strip_feed;
static bool (*const end)(ansi_strip *, unsigned char *, size_t, size_t *) = ansi_strip_end;

enum { COUNT = 4096, AFTER = 64 };

/* A state, and bytes after it that no call may touch. */
struct guarded {
    ansi_strip state;
    unsigned char after[AFTER];
};

static struct guarded any_state(unsigned char byte)
{
    struct guarded it;

    memset(&it, byte, sizeof it);
    return it;
}

static void init_begins_a_stream(void)
{
    struct guarded it = any_state(0xA5);
    unsigned char room[16];
    size_t taken = 7, written = 7;

    feed(&it.state, (const unsigned char *)"\033]0;", 4, room, sizeof room, &taken, &written);
    init(&it.state);
    expect(feed(&it.state, (const unsigned char *)"A", 1, room, sizeof room, &taken, &written), "a stream begins");
    expect(taken == 1 && written == 1 && room[0] == 'A', "after ansi_strip_init its text is left");
    expect(are(it.after, AFTER, 0xA5), "what follows the state is as it was");
}

static void long_title_stays_in_the_state(void)
{
    struct guarded it = any_state(0xA5);
    unsigned char piece[3000], room[16];
    size_t taken, written;

    init(&it.state);
    memset(piece, 'x', sizeof piece);
    memcpy(piece, "\033]0;", 4);
    expect(feed(&it.state, piece, sizeof piece, room, sizeof room, &taken, &written), "a title is taken");
    expect(taken == sizeof piece && written == 0, "a title leaves nothing");
    expect(are(it.after, AFTER, 0xA5), "what follows a state that is full is as it was");
}

/* The counts are not alike, so they cannot be taken for one another. */
static void counts_have_their_places(void)
{
    ansi_strip state;
    unsigned char room[16];
    size_t taken, written;

    memset(&state, 0, sizeof state);
    memset(room, 0x7E, sizeof room);
    expect(feed(&state, (const unsigned char *)"\033[1mabZZ", 6, room, sizeof room, &taken, &written), "there is room");
    expect(taken == 6, "six bytes are taken");
    expect(written == 2 && memcmp(room, "ab", 2) == 0, "two bytes of text are written");
    expect(are(room + 2, sizeof room - 2, 0x7E), "what follows the text is as it was");
}

static void little_room_is_refused(void)
{
    const unsigned char last[] = {0x80};
    ansi_strip state, before;
    unsigned char room[8];
    size_t size, taken, written;

    memset(&state, 0, sizeof state);
    feed(&state, (const unsigned char *)"\360\237\230", 3, room, sizeof room, &taken, &written);
    before = state;
    for (size = 0; size < ANSI_STRIP_LEAST_ROOM; size++) {
        memset(room, 0x7E, sizeof room);
        taken = written = 7;
        expect(feed(&state, last, 1, room, size, &taken, &written) == false, "little room is refused");
        expect(taken == 0 && written == 0, "nothing is taken or written");
        expect(memcmp(&state, &before, sizeof state) == 0, "the state is as it was");
        expect(are(room, sizeof room, 0x7E), "the room is as it was");
    }
    expect(feed(&state, (const unsigned char *)"", 0, room, 0, &taken, &written), "no bytes need no room");
    expect(feed(&state, last, 1, room, ANSI_STRIP_LEAST_ROOM, &taken, &written) == true,
           "the least room suffices");
    expect(taken == 1 && written == 4 && memcmp(room, "\360\237\230\200", 4) == 0, "a character of four bytes is left");
}

/* A character is begun, each byte breaks one, and the last belongs to none: no text is longer. */
static void longest_text_has_room(void)
{
    struct guarded it = any_state(0xA5);
    unsigned char *piece = (unsigned char *)malloc(COUNT);
    unsigned char *room = (unsigned char *)malloc(ANSI_STRIP_ROOM(COUNT) + AFTER);
    size_t taken, written;

    init(&it.state);
    memset(piece, 0xF0, COUNT);
    feed(&it.state, piece, 1, room, ANSI_STRIP_ROOM(1), &taken, &written);
    piece[COUNT - 1] = 0xFF;
    memset(room, 0x7E, ANSI_STRIP_ROOM(COUNT) + AFTER);
    expect(feed(&it.state, piece, COUNT, room, ANSI_STRIP_ROOM(COUNT), &taken, &written), "there is room");
    expect(taken == COUNT, "4,096 bytes are taken at once");
    expect(written == ANSI_STRIP_ROOM(COUNT), "they leave 12,291 bytes of text");
    expect(memcmp(room + written - 6, "\357\277\275\357\277\275", 6) == 0, "U+FFFD each");
    expect(are(room + written, AFTER, 0x7E), "what follows the room is as it was");
    free(piece);
    free(room);
}

/* Bytes of no character are U+FFFD, one too that breaks a character; and BEL ends a string that terminals ignore. */
static void is_read_as_a_log(void)
{
    ansi_strip state;
    unsigned char room[64];
    size_t taken, written;

    init(&state);
    expect(feed(&state, (const unsigned char *)"M\374ller\033_t=17\007$ \303", 16, room, sizeof room, &taken, &written), "there is room");
    expect(taken == 16 && written == 10 && memcmp(room, "M\357\277\275ller$ ", 10) == 0, "a stamp leaves nothing");
    expect(feed(&state, (const unsigned char *)"\377", 1, room, ANSI_STRIP_LEAST_ROOM, &taken, &written), "there is room");
    expect(written == 6 && memcmp(room, "\357\277\275\357\277\275", 6) == 0, "U+FFFD twice");
}

/* The end of a stream: a character that is begun is U+FFFD, a sequence nothing. */
static void end_begins_a_stream(void)
{
    ansi_strip state, before;
    unsigned char room[8];
    size_t size, taken, written;

    init(&state);
    feed(&state, (const unsigned char *)"a\342\202", 3, room, sizeof room, &taken, &written);
    before = state;
    for (size = 0; size < ANSI_STRIP_END_ROOM; size++) {
        memset(room, 0x7E, sizeof room);
        written = 7;
        expect(end(&state, room, size, &written) == false && written == 0, "little room for an end is refused");
        expect(memcmp(&state, &before, sizeof state) == 0 && are(room, sizeof room, 0x7E), "nothing is done");
    }
    expect(end(&state, room, ANSI_STRIP_END_ROOM, &written) && written == 3, "the character is broken off");
    expect(memcmp(room, "\357\277\275", 3) == 0 && are(room + 3, sizeof room - 3, 0x7E), "it is U+FFFD");
    feed(&state, (const unsigned char *)"\254\033[1", 4, room, sizeof room, &taken, &written);
    expect(written == 3, "then a stream begins, with a byte of no character");
    expect(end(&state, room, sizeof room, &written) && written == 0, "a sequence leaves nothing");
    feed(&state, (const unsigned char *)"mx", 2, room, sizeof room, &taken, &written);
    expect(written == 2, "and does not go on");
}

/* U+009B is C2 9B, which comes in two pieces; neither it nor DEL is left. */
static void text_drives_no_terminal(void)
{
    ansi_strip state;
    unsigned char room[16];
    size_t taken, written;

    memset(&state, 0, sizeof state);
    expect(feed(&state, (const unsigned char *)"a\302", 2, room, sizeof room, &taken, &written), "there is room");
    expect(written == 1 && room[0] == 'a', "a character that is begun is not left yet");
    expect(feed(&state, (const unsigned char *)"\2331m\177~", 5, room, sizeof room, &taken, &written), "there is room");
    expect(taken == 5 && written == 3 && memcmp(room, "1m~", 3) == 0, "U+009B and DEL leave nothing");
}

int main(void)
{
    init_begins_a_stream();
    long_title_stays_in_the_state();
    counts_have_their_places();
    little_room_is_refused();
    longest_text_has_room();
    is_read_as_a_log();
    end_begins_a_stream();
    text_drives_no_terminal();
    return failures != 0;
}
