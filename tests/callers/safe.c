/* What include/ansi_safe.h declares, and what a caller rests on: sizes, numbers, types, false answers, any bytes in a
 * state, what waits, the end. tests/library compiles it as C and as C++, and with the sanitizers. Says what is wrong on
 * standard error and ends with status 1. */
#include "ansi_safe.h"
#include "ansi_safe.h" /* (a second time: it guards itself) */
#include "ansi_events.h" /* (and these stand beside it) */
#include "ansi_html.h"
#include "ansi_strip.h"

#define CALLER "safe.c"
#define STATE ansi_safe
#define FEED ansi_safe_feed
#define END ansi_safe_end
#include "stream.h"

#include <assert.h>
#include <stdio.h>
#include <stdlib.h>
#include <string.h>

static_assert(sizeof(struct ansi_safe) == 1080, "a state has 1,080 bytes");
static_assert(offsetof(ansi_safe, others) == sizeof(size_t), "nothing stands between");
static_assert(ANSI_SAFE_LEAST_ROOM == 60 && ANSI_SAFE_END_ROOM == 50, "what one byte and an end may need");
static_assert(ANSI_SAFE_ROOM(0) == 40, "forty bytes for each, and forty more");
static_assert(ANSI_SAFE_ROOM(1 + 1) == 120, "the count stands in brackets");
static_assert(2 * ANSI_SAFE_ROOM(1) == 160, "and so does the whole");
static_assert(ANSI_SAFE_ROOM(0x60000000) == 0xF00000028, "also of a large count");

/* The type: with another one this is a warning, and warnings are errors. */
static void (*const init)(ansi_safe *) = ansi_safe_init;

static void init_begins_a_stream(void)
{
    memset(&it, 0xA5, sizeof it);
    init(&it.state);
    expect(goes_on("a\033[1mb", SIZE) && taken == 6 && is_written("ab"), "a stream begins");
    expect(are(it.after, AFTER, 0xA5), "what follows the state is as it was");
    expect(goes_on("<\033[", SIZE) && is_written(""), "a less sign waits");
    init(&it.state);
    expect(goes_on("mU+", SIZE) && is_written("mU+"), "and none does once a stream begins");
}

/* What waits for the next character, that one, and what is then written; and what is written where none comes. */
static void what_waits_is_written(void)
{
    static const char *const rows[][4] = {
        {"\r", "\n", "\n", "<U+000D>"},
        {"\r", "x", "<U+000D>x", "<U+000D>"},
        {"<", "x", "<x", "<"},
        {"<U", "+", "<U+003C>U+", "<U"},
        {"<U", "<", "<U", "<U"},
        {"\xE2\x80\x8D", "\xF0\x9F\x91\xA9", "<U+200D>\xF0\x9F\x91\xA9", "<U+200D>"},
        {"\xE2\x80\x8B", "a", "<U+200B>a", "<U+200B>"},
        {"\xE2\x80\x8C", "a", "<U+200C>a", "<U+200C>"},
        {"\xEF\xB8\x8E", "a", "<U+FE0E>a", "<U+FE0E>"},
        {"\xEF\xB8\x8F", "a", "<U+FE0F>a", "<U+FE0F>"},
    };
    size_t at;

    memset(&it, 0, sizeof it);
    for (at = 0; at < sizeof rows / sizeof *rows; at++) {
        ansi_safe copy;

        init(&it.state);
        expect(goes_on(rows[at][0], SIZE) && is_written(""), "it waits");
        copy = it.state;
        expect(goes_on(rows[at][1], SIZE) && is_written(rows[at][2]), "then it is decided");
        it.state = copy;
        expect(ends(ANSI_SAFE_END_ROOM) && is_written(rows[at][3]), "a copy goes on as the state did, and ends");
        expect(goes_on("+", SIZE) && is_written("+"), "then a stream begins");
    }
    init(&it.state);
    expect(goes_on("\xF0\x9F\x91\xA8", SIZE) && is_written("\xF0\x9F\x91\xA8"), "an emoji");
    expect(goes_on("\xE2\x80\x8D", SIZE) && is_written(""), "a joiner waits behind it");
    expect(goes_on("\033[1m\xF0\x9F\x91\xA9", SIZE) && is_written("\xE2\x80\x8D\xF0\x9F\x91\xA9"), "and stays between two");
    expect(goes_on("\xE2\x80\x8D", SIZE) && ends(SIZE) && is_written("<U+200D>"), "at the end it does not");
}

/* Hidden text is marked, whatever pieces part it from its sequences and its end. */
static void hidden_text_is_marked(void)
{
    ansi_safe copy;

    init(&it.state);
    expect(goes_on("a\033[8", SIZE) && goes_on("m", SIZE) && is_written(""), "text comes next that is hidden");
    copy = it.state;
    expect(goes_on("b", SIZE) && is_written("<U+hidden>b"), "it is marked where it begins");
    expect(goes_on("c", SIZE) && is_written("c"), "and only there");
    expect(goes_on("\n", SIZE) && is_written("<U+shown>\n"), "it ends with its line");
    expect(goes_on("d", SIZE) && goes_on("\033[28me", SIZE) && is_written("<U+shown>e"), "and where text is shown again");
    it.state = copy;
    expect(goes_on("b", SIZE) && ends(ANSI_SAFE_END_ROOM) && is_written("<U+shown>"), "and where the stream ends");
    expect(goes_on("b", SIZE) && is_written("b"), "of the next stream nothing is hidden");
    it.state = copy;
    expect(ends(ANSI_SAFE_END_ROOM) && is_written(""), "where no text came there is no mark");
    it.state = copy;
    init(&it.state);
    expect(goes_on("b", SIZE) && is_written("b"), "nor behind ansi_safe_init");
}

static void little_room_is_refused(void)
{
    size_t size;

    init(&it.state);
    goes_on("\033[1mx\r", SIZE);
    for (size = 0; size < ANSI_SAFE_LEAST_ROOM; size++)
        refuses(size);
    for (size = 0; size < ANSI_SAFE_END_ROOM; size++)
        refuses_to_end(size);
    expect(goes_on("", 0) && taken == 0 && written == 0, "no bytes need no room");
    expect(goes_on("x", ANSI_SAFE_LEAST_ROOM) && taken == 1 && is_written("<U+000D>x"), "the least room suffices");
}

/* One byte that breaks a character off, behind a carriage return, or the end: as much as a byte is thought to lead to, or nearly so.
 * What begins the character, what is written of it, the byte, or none at the end, and what that leads to. */
static void one_byte_leads_to_much(void)
{
    static const char *const rows[][5] = {
        {"nineteen bytes of one", "\r\xF0\x9F\x91", "", "\a", "<U+000D>\xEF\xBF\xBD<U+0007>"},
        {"a byte of none behind a less sign", "<\xC3", "", "\xFC", "<\xEF\xBF\xBD\xEF\xBF\xBD"},
        {"BEL ends a string", "\033_t\a\r\xE2\x82", "", "", "<U+000D>\xEF\xBF\xBD"},
        {"a tag is written", "<U\xF3\xA0\x81", "", "\x81", "<U<U+E0041>"},
        {"thirty bytes at the end", "a\r\033[8m\xE2\x82", "a", "", "<U+000D><U+hidden>\xEF\xBF\xBD<U+shown>"},
    };
    size_t at;

    for (at = 0; at < sizeof rows / sizeof *rows; at++) {
        const char *name = rows[at][0], *byte = rows[at][3];

        init(&it.state);
        expect(goes_on(rows[at][1], SIZE) && is_written(rows[at][2]), name);
        expect(*byte ? goes_on(byte, ANSI_SAFE_LEAST_ROOM) : ends(ANSI_SAFE_END_ROOM), name);
        expect(is_written(rows[at][4]), name);
    }
}

/* In room for what they may lead to all bytes are taken at once, and at least one in the least room. */
static void much_is_taken_at_once(void)
{
    static unsigned char large[ANSI_SAFE_ROOM(100000) + AFTER], piece[100000];
    static const char text[] = "x<\t\r\a\x9B";
    size_t turn, at;

    for (turn = 0; turn < sizeof text - 1; turn++) {
        memset(&it, 0, sizeof it);
        memset(large, 0x7E, sizeof large);
        memset(piece, text[turn], sizeof piece);
        expect(feed(&it.state, piece, sizeof piece, large, sizeof large - AFTER, &taken, &written), "there is room");
        expect(taken == sizeof piece, "all is taken");
        expect(are(large + sizeof large - AFTER, AFTER, 0x7E), "past the room nothing is written");
        for (at = 0; at < 100; at += taken) {
            expect(feed(&it.state, piece + at, 100 - at, room, ANSI_SAFE_LEAST_ROOM, &taken, &written), "there is room");
            expect(taken > 0 && written <= ANSI_SAFE_LEAST_ROOM, "some is taken");
            if (taken == 0)
                break;
        }
    }
}

int main(void)
{
    init_begins_a_stream();
    what_waits_is_written();
    hidden_text_is_marked();
    little_room_is_refused();
    one_byte_leads_to_much();
    any_bytes_are_a_state("<x", true);
    much_is_taken_at_once();
    return failures != 0;
}
