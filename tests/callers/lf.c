/* What include/ansi_strip.h declares of lines, and what a caller rests on: sizes, numbers, types, false answers, any byte in
 * a state, what waits, the end, each cut of short texts. tests/library compiles it as C and as C++, and with the sanitizers.
 * Says what is wrong on standard error and ends with status 1. */
#include "ansi_strip.h"

#define CALLER "lf.c"
#define STATE ansi_lf
#define FEED ansi_lf_feed
#define END ansi_lf_end
#include "stream.h"

#include <assert.h>
#include <stdio.h>
#include <stdlib.h>

static_assert(sizeof(struct ansi_lf) == 1, "a state has 1 byte");
static_assert(ANSI_LF_LEAST_ROOM == 2 && ANSI_LF_END_ROOM == 1, "what one byte and an end may need");
static_assert(ANSI_LF_ROOM(0) == 1 && ANSI_LF_ROOM(4096) == 4097, "one byte for each, and one more");
static_assert(2 * ANSI_LF_ROOM(1) == 4, "the whole stands in brackets");
static_assert(sizeof(ANSI_LF_ROOM((char)1)) == sizeof(size_t), "it is a size");

/* The type: with another one this is a warning, and warnings are errors. */
static void (*const init)(ansi_lf *) = ansi_lf_init;

static void returns_wait(void)
{
    memset(&it, 0xA5, sizeof it);
    init(&it.state);
    expect(goes_on("a\r\nb\n", SIZE) && taken == 5 && is_written("a\nb\n"), "a carriage return before a line feed goes");
    expect(are(it.after, AFTER, 0xA5), "what follows the state is as it was");
    expect(goes_on("\r\r\n", SIZE) && is_written("\r\n"), "and of two one");
    expect(goes_on("a\r", SIZE) && taken == 2 && is_written("a"), "one that comes last waits");
    expect(goes_on("", SIZE) && is_written(""), "also where nothing comes");
    expect(goes_on("\n", SIZE) && is_written("\n"), "and goes before a line feed");
    expect(goes_on("\r", SIZE) && goes_on("b", SIZE) && is_written("\rb"), "or stays before another byte");
    expect(goes_on("\r", SIZE) && goes_on("\r", SIZE) && is_written("\r"), "also before another one");
    expect(ends(ANSI_LF_END_ROOM) && is_written("\r"), "and at the end");
    expect(ends(ANSI_LF_END_ROOM) && is_written(""), "then a text begins");
    expect(goes_on("\r", SIZE), "one waits");
    init(&it.state);
    expect(goes_on("a", SIZE) && is_written("a"), "and none behind ansi_lf_init");
}

static void little_room_is_refused(void)
{
    init(&it.state);
    goes_on("\r", SIZE);
    refuses(0);
    refuses(1);
    refuses_to_end(0);
    expect(goes_on("", 0) && taken == 0 && written == 0, "no bytes need no room");
    expect(goes_on("xyz", ANSI_LF_LEAST_ROOM) && taken == 1 && is_written("\rx"), "the least room suffices");
    expect(goes_on("xyz", 3) && taken == 2 && is_written("xy"), "a byte of room is kept for one that waits");
    expect(goes_on("xyz", ANSI_LF_ROOM(3)) && taken == 3 && is_written("xyz"), "in room for them all are taken");
}

/* What is left of a text, told in another way: byte after byte, by the next one. */
static size_t left_of(const char *text, size_t count, char *left)
{
    size_t at, many = 0;

    for (at = 0; at < count; at++)
        if (text[at] != '\r' || at + 1 == count || text[at + 1] != '\n')
            left[many++] = text[at];
    return many;
}

/* All texts of six bytes of three kinds, in two pieces or three, however they are cut, and in the least room. */
static void each_cut_is_the_same(void)
{
    enum { COUNT = 6, ALL = 729 };
    static const char kinds[] = "\r\nx";
    char text[COUNT], left[COUNT], found[2 * COUNT];
    size_t number, at, rest, first, second, size;

    for (number = 0; number < ALL; number++) {
        for (at = 0, rest = number; at < COUNT; at++, rest /= 3)
            text[at] = kinds[rest % 3];
        for (first = 0; first <= COUNT; first++)
            for (second = first; second <= COUNT; second++)
                for (size = ANSI_LF_LEAST_ROOM; size <= ANSI_LF_ROOM(COUNT); size += ANSI_LF_ROOM(COUNT) - ANSI_LF_LEAST_ROOM) {
                    const size_t ends_at[] = {first, second, COUNT};
                    size_t piece, filled = 0;

                    init(&it.state);
                    for (at = 0, piece = 0; piece < 3; at += taken) {
                        if (at == ends_at[piece]) {
                            piece++;
                            taken = 0;
                            continue;
                        }
                        taken = written = 0;
                        feed(&it.state, (const unsigned char *)text + at, ends_at[piece] - at, room, size, &taken, &written);
                        expect(taken > 0 && written <= size, "some is taken");
                        if (taken == 0)
                            return;
                        memcpy(found + filled, room, written);
                        filled += written;
                    }
                    expect(end(&it.state, room, size, &written) && written <= 1, "it has an end");
                    memcpy(found + filled, room, written);
                    filled += written;
                    expect(filled == left_of(text, COUNT, left) && memcmp(found, left, filled) == 0, "what is left is the same");
                }
    }
}

int main(void)
{
    returns_wait();
    little_room_is_refused();
    any_bytes_are_a_state("<x", false);
    each_cut_is_the_same();
    return failures != 0;
}
