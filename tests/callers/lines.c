/* What include/ansi_screen.h says of rows that are written as lines, of text and of HTML: types, numbers, and rows worked by hand.
 * tests/screen_library compiles it as C and as C++, with the sanitizers. Says what is wrong on standard error and ends with status 1. */
#include "ansi_screen.h"

#define CALLER "lines.c"
#include "expect.h"

#include <assert.h>
#include <string.h>

static_assert(ANSI_ROWS_SHOWN == 0 && ANSI_ROWS_LEFT == 1 && ANSI_ROWS_ALL == 2, "rows have these numbers");

/* The types: with another one this is a warning, and warnings are errors. */
static bool (*const lines_of)(ansi_screen *, unsigned char, unsigned char *, size_t, size_t *) = ansi_screen_lines;
static bool (*const html_of)(ansi_screen *, unsigned char, unsigned char, unsigned char *, size_t, size_t *) = ansi_screen_lines_html;

enum { ROOM = 1024, GUARD = 0xA5, TEXT = 4 };

static void feed_text(ansi_screen *screen, const char *text)
{
    expect(ansi_screen_feed(screen, (const unsigned char *)text, strlen(text)), "bytes are taken");
}

/* The rows of a number, as HTML in a styling, or as text. */
static bool answers(ansi_screen *screen, unsigned char which, unsigned char form, unsigned char *room, size_t size, size_t *written)
{
    return form == TEXT ? lines_of(screen, which, room, size, written) : html_of(screen, which, form, room, size, written);
}

/* They are these, in just so much room and in more, of which the rest stays; a byte less is told, and no room at all. */
static void are_lines(ansi_screen *screen, unsigned char which, unsigned char form, const char *wanted)
{
    unsigned char room[ROOM];
    size_t length = strlen(wanted), written, turn;

    for (turn = 0; turn < 2; turn++) {
        written = 7;
        memset(room, GUARD, sizeof room);
        expect(answers(screen, which, form, room, length + turn, &written) && written == length && !memcmp(room, wanted, length), wanted);
        expect(are(room + length, sizeof room - length, GUARD), "past lines the room is as it was");
    }
    for (turn = 0; length && turn < length; turn += length - 1 ? length - 1 : 1)
        expect(!answers(screen, which, form, room, turn, &written) && written == length, "less room is told, with what they take");
}

/* Those that show, those that left, and all. */
static void text_is(ansi_screen *screen, const char *shown, const char *left, const char *all)
{
    are_lines(screen, ANSI_ROWS_SHOWN, TEXT, shown);
    are_lines(screen, ANSI_ROWS_LEFT, TEXT, left);
    are_lines(screen, ANSI_ROWS_ALL, TEXT, all);
    are_lines(screen, 3, TEXT, shown);
    are_lines(screen, 255, TEXT, shown);
}

static void html_is(ansi_screen *screen, unsigned char styling, const char *shown, const char *left, const char *all)
{
    are_lines(screen, ANSI_ROWS_SHOWN, styling, shown);
    are_lines(screen, ANSI_ROWS_LEFT, styling, left);
    are_lines(screen, ANSI_ROWS_ALL, styling, all);
    are_lines(screen, 200, styling, shown);
}

#define BOLD(text) "<span class=\"ansi-bold\">" text "</span>"
#define LINK "<a rel=\"nofollow noreferrer\" href=\"http://x\" style=\"color:inherit;\">"

/* Four columns and two rows: blanks that were printed, a row that goes on across the top of the screen, and the alternate screen. */
static void rows(ansi_screen *it)
{
    text_is(it, "", "", "");
    html_is(it, 0, "", "", "");
    feed_text(it, "a <\r\n\033[1mdddd");
    text_is(it, "a <\ndddd\n", "", "a <\ndddd\n");
    feed_text(it, "e");
    text_is(it, "dddde\n", "a <\n", "a <\ndddde\n");
    html_is(it, 3, BOLD("dddde") "\n", "a &lt;\n", "a &lt;\n" BOLD("dddde") "\n");
    feed_text(it, "\033[m\r\nf ");
    text_is(it, "e\nf \n", "a <\ndddd\n", "a <\ndddde\nf \n");
    html_is(it, 3, BOLD("e") "\nf \n", "a &lt;\n" BOLD("dddd") "\n", "a &lt;\n" BOLD("dddde") "\nf \n");
    feed_text(it, "\033[?1049hz");
    text_is(it, "\n  z\n", "a <\ndddd\n", "a <\ndddde\nf \n\n  z\n");
    html_is(it, 3, "\n  z\n", "a &lt;\n" BOLD("dddd") "\n", "a &lt;\n" BOLD("dddde") "\nf \n\n  z\n");
    feed_text(it, "\033[?1049l\033c");
    text_is(it, "", "a <\ndddde\nf \n", "a <\ndddde\nf \n");
}

static void links(ansi_screen *it)
{
    expect(ansi_screen_reset(it), "a screen is reset");
    feed_text(it, "\033]8;;http://x\033\\l\r\nm\033]8;;\033\\\r\n\033[31mn");
    html_is(it, 1, LINK "m</a>\n<span style=\"color:#cf222e;\">n</span>\n", LINK "l</a>\n", LINK "l</a>\n" LINK "m</a>\n<span style=\"color:#cf222e;\">n</span>\n");
}

int main(void)
{
    ansi_screen it = {0}, few = {0}, none = {0};
    ansi_screen_options options = {9, 0, {0}};
    unsigned char room[8];
    size_t written = 7;

    memset(room, GUARD, sizeof room);
    expect(!lines_of(&none, 2, room, sizeof room, &written) && written == 0, "no screen has lines");
    written = 7;
    expect(!html_of(&none, 2, 0, room, sizeof room, &written) && written == 0, "nor as HTML");
    expect(are(room, sizeof room, GUARD) && !none.held, "and nothing is written");
    expect(ansi_screen_open_with(&it, 4, 2, &options), "a screen opens that keeps rows");
    rows(&it);
    links(&it);
    options.history = 1;
    expect(ansi_screen_open_with(&few, 4, 2, &options), "one opens that keeps one");
    feed_text(&few, "a\r\nb\r\nc\r\nd");
    text_is(&few, "c\nd\n", "b\n", "b\nc\nd\n");
    ansi_screen_close(&it);
    ansi_screen_close(&few);
    return failures ? 1 : 0;
}
