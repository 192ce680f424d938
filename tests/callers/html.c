/* What include/ansi_html.h declares, and what a caller rests on: sizes, numbers, types, false answers, any
 * bytes in a state, the end. tests/library compiles it as C and as C++, and with the sanitizers. Says what
 * is wrong on standard error and ends with status 1. */
#include "ansi_html.h"
#include "ansi_html.h" /* (a second time: it guards itself) */
#include "ansi_events.h" /* (and these stand beside it) */
#include "ansi_strip.h"

#define CALLER "html.c"
#define STATE ansi_html
#define FEED ansi_html_feed
#define END ansi_html_end
#include "stream.h"

#include <assert.h>
#include <stdio.h>
#include <stdlib.h>
#include <string.h>

static_assert(sizeof(struct ansi_html) == 3192, "a state has 3,192 bytes");
static_assert(offsetof(ansi_html, others) == sizeof(size_t), "nothing stands between");
static_assert(ANSI_HTML_BOTH == 0 && ANSI_HTML_LIGHT == 1, "stylings have the numbers that are told apart below");
static_assert(ANSI_HTML_DARK == 2 && ANSI_HTML_CLASSES == 3, "stylings have the numbers that are told apart below");
static_assert(ANSI_HTML_LEAST_ROOM == 6534 && ANSI_HTML_END_ROOM == 6539, "what one byte and an end may need");

/* The type: with another one this is a warning, and warnings are errors. */
static void (*const init)(ansi_html *, unsigned char) = ansi_html_init;

enum { STYLING = 3185 };

/* The styling is the last byte but one that is used of a state. */
static void init_begins_a_stream(void)
{
    unsigned char styling;

    for (styling = 0; styling < 6; styling++) {
        memset(&it, 0xA5, sizeof it);
        init(&it.state, styling);
        expect(((unsigned char *)&it.state)[STYLING] == (styling < 4 ? styling : 0), "a styling stands there");
        expect(are(it.after, AFTER, 0xA5), "what follows the state is as it was");
        expect(goes_on("a<", SIZE) && taken == 2 && is_written("a&lt;"), "a stream begins");
    }
}

static void stylings_are_told_apart(void)
{
    static const char *const begins[] = {
        "<span style=\"color:#cf222e;color:light-dark(#cf222e,#ff7b72);\">x",
        "<span style=\"color:#cf222e;\">x",
        "<span style=\"color:#ff7b72;\">x",
        "<span class=\"ansi-f1\">x",
    };
    unsigned char styling;

    for (styling = 0; styling < 4; styling++) {
        init(&it.state, styling);
        expect(goes_on("\033[31mx", SIZE) && taken == 6 && is_written(begins[styling]), "a span is opened");
        expect(goes_on("y", SIZE) && is_written("y"), "it is open in the next piece");
        expect(ends(ANSI_HTML_END_ROOM) && is_written("</span>"), "it is closed at the end");
        expect(goes_on("z", SIZE) && is_written("z"), "then a stream begins");
        expect(goes_on("\033[31mx", SIZE) && is_written(begins[styling]), "it begins in the same styling");
        expect(goes_on("\033[3", SIZE) && ends(SIZE) && goes_on("1mz", SIZE), "an end in a sequence");
        expect(is_written("1mz"), "the sequence does not go on");
        expect(ends(SIZE) && goes_on("\374\033_t=1\007\303", SIZE), "a byte of no character, a stamp and half of one");
        expect(is_written("\357\277\275") && ends(SIZE) && is_written("\357\277\275"), "are U+FFFD, nothing and U+FFFD");
    }
}

static void little_room_is_refused(void)
{
    size_t size;

    init(&it.state, ANSI_HTML_BOTH);
    goes_on("\033]8;;https://a/\007link\r\033[1m", SIZE);
    for (size = 0; size < ANSI_HTML_LEAST_ROOM; size += size < 16 ? 1 : 726)
        refuses(size);
    expect(!goes_on("x", ANSI_HTML_LEAST_ROOM - 1), "one byte less than the least room is refused");
    for (size = 0; size < ANSI_HTML_END_ROOM; size += size < 16 ? 1 : 31)
        refuses_to_end(size);
    expect(goes_on("", 0) && taken == 0 && written == 0, "no bytes need no room");
    expect(goes_on("x", ANSI_HTML_LEAST_ROOM) && taken == 1, "the least room suffices");
    expect(written > 6 && memcmp(room, "<span ", 6) == 0, "a span is opened in the link");
    expect(ends(SIZE) && is_written("</span></a>"), "a span and its link are closed");
}

/* The longest link, of which each byte becomes a reference. */
static void long_link_stays_in_the_state(void)
{
    char text[1100] = "\033]8;;https://";

    memset(&it, 0xA5, sizeof it);
    init(&it.state, ANSI_HTML_CLASSES);
    memset(text + 13, '"', 1014);
    expect(goes_on(text, SIZE) && written == 0, "a command is taken");
    expect(goes_on("\007", SIZE) && written == 0, "it leaves nothing");
    expect(goes_on("x", ANSI_HTML_LEAST_ROOM) && taken == 1, "one byte is taken");
    expect(written > 6 * 1014 && written <= ANSI_HTML_LEAST_ROOM, "it opens a long link");
    expect(are(it.after, AFTER, 0xA5), "what follows the state is as it was");
    expect(ends(SIZE) && is_written("</a>"), "a link is closed");
}

/* Whatever a state holds, a link is no script. */
static void no_link_is_a_script(void)
{
    unsigned char *bytes = (unsigned char *)&it.state;
    size_t at;

    init(&it.state, ANSI_HTML_LIGHT);
    goes_on("\033]8;;https://a/\007x", SIZE);
    for (at = 0; at + 8 <= sizeof it.state; at++)
        if (memcmp(bytes + at, "https://", 8) == 0)
            memcpy(bytes + at, "script:/", 8);
    expect(goes_on("y", SIZE) && is_written("y"), "a link that is no link is none");
}

/* Of a large room a part is used, and of a long piece a part is taken. */
static void much_is_taken_in_parts(void)
{
    static unsigned char large[1 << 17], piece[100000];
    static const char text[] = "x<\t";
    size_t turn;

    for (turn = 0; turn < 3; turn++) {
        memset(&it, 0, sizeof it);
        memset(large, 0x7E, sizeof large);
        memset(piece, text[turn], sizeof piece);
        expect(feed(&it.state, piece, sizeof piece, large, sizeof large, &taken, &written), "there is room");
        expect(taken > 0 && taken <= 4096 && written >= taken && written <= 16384, "a part is taken");
        expect(are(large + 16384, sizeof large - 16384, 0x7E), "no more of the room is used");
    }
}

int main(void)
{
    init_begins_a_stream();
    stylings_are_told_apart();
    little_room_is_refused();
    long_link_stays_in_the_state();
    any_bytes_are_a_state("&lt;x", true);
    no_link_is_a_script();
    much_is_taken_in_parts();
    return failures != 0;
}
