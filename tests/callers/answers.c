/* What include/ansi_screen.h says of answers, and of the terminal's own colours: sizes, types, rows worked by hand (xterm's ctlseqs),
 * and what is refused. tests/screen_library compiles it as C and as C++, with the sanitizers. Says what is
 * wrong on standard error and ends with status 1. */
#include "ansi_screen.h"

#define CALLER "answers.c"
#include "expect.h"

#include <assert.h>
#include <string.h>

static_assert(sizeof(ansi_rgb) == 4, "a colour that is told has 4 bytes");
static_assert(offsetof(ansi_rgb, red) == 1 && offsetof(ansi_rgb, blue) == 3, "of which whether it is told is first");
static_assert(sizeof(ansi_colors) == 1036, "colours have 1,036 bytes");
static_assert(offsetof(ansi_colors, background) == 4 && offsetof(ansi_colors, cursor) == 8, "which stand in order");
static_assert(offsetof(ansi_colors, palette) == 12, "the palette last");
static_assert(ANSI_SCREEN_ANSWERS_ROOM == 4096, "the room is as it is said");

/* The types: with another one this is a warning, and warnings are errors. */
static bool (*const answers_of)(ansi_screen *, unsigned char *, size_t, size_t *, uint8_t *) = ansi_screen_answers;
static bool (*const tell_colors)(ansi_screen *, const ansi_colors *) = ansi_screen_colors;

enum { GUARD = 0xA5 };

static unsigned char room[ANSI_SCREEN_ANSWERS_ROOM + 1];

static void feed_text(ansi_screen *screen, const char *text)
{
    expect(ansi_screen_feed(screen, (const unsigned char *)text, strlen(text)), "bytes are taken");
}

/* The answers are these, in just so much room; in a byte less they are told, and wait on. Then none waits. */
static void answers_are(ansi_screen *screen, const char *wanted, uint8_t wanted_lost, const char *what)
{
    size_t length = strlen(wanted), written = 7;
    uint8_t lost = 7;

    memset(room, GUARD, sizeof room);
    if (length) {
        expect(!answers_of(screen, room, length - 1, &written, &lost) && written == length && lost == 7, what);
        expect(are(room + length - 1, sizeof room - length + 1, GUARD), "nothing stands past the room");
    }
    expect(answers_of(screen, room, length, &written, &lost) && written == length && lost == wanted_lost, what);
    expect(!memcmp(room, wanted, length) && are(room + length, sizeof room - length, GUARD), what);
    expect(answers_of(screen, room, 0, &written, &lost) && !written && !lost, "they are told once");
}

static void none_is_held(void)
{
    static const ansi_colors colors = {{0, 0, 0, 0}, {0, 0, 0, 0}, {0, 0, 0, 0}, {{0, 0, 0, 0}}};
    ansi_screen none = {0};
    size_t written = 7;
    uint8_t lost = 7;

    expect(!answers_of(&none, room, sizeof room, &written, &lost) && !written && lost == 7, "no screen answers");
    expect(!tell_colors(&none, &colors) && !none.held, "nor takes it colours");
}

static void rows(ansi_screen *it)
{
    answers_are(it, "", 0, "a new screen answers nothing");
    feed_text(it, "\033[3;5H\033[6");
    answers_are(it, "", 0, "nor what has no end");
    feed_text(it, "n\033[5n");
    answers_are(it, "\033[3;5R\033[0n", 0, "DSR, the oldest first");
    feed_text(it, "\033[c\033[>c\033[=c\033[?2026$p");
    answers_are(it, "\033[?62;22c\033[>1;10;0c\033P!|00000000\033\\\033[?2026;2$y", 0, "DA1 to DA3, and DECRQM");
    feed_text(it, "\033]2;ls\007ls\033[21t\033P$qls\033\\\033]11;?\007");
    answers_are(it, "\033P0$r\033\\", 0, "no text comes back, and no colour that is not told");
}

static void losses(ansi_screen *it)
{
    ansi_screen copy = {0};
    char wanted[64 * 4 + 1] = "";
    int number;

    feed_text(it, "\033[c");
    for (number = 0; number < 64; number++) {
        feed_text(it, "\033[5n");
        memcpy(wanted + 4 * number, "\033[0n", 5);
    }
    expect(ansi_screen_copy(&copy, it), "it is copied");
    answers_are(it, wanted, 1, "64 wait, and the oldest was lost");
    answers_are(&copy, wanted, 1, "in a copy too");
    ansi_screen_close(&copy);
    feed_text(it, "\033[5n\033P$q");
    expect(ansi_screen_reset(it), "it is reset");
    feed_text(it, "m\033\\");
    answers_are(it, "", 0, "a reset forgets answers");
}

/* The longest answers fill no more than the room. */
static void longest(ansi_screen *it)
{
    size_t written;
    uint8_t lost;
    int number;

    feed_text(it, "\033[1;2;3;21;5;7;8;9;53;38;2;255;254;253;48;2;252;251;250m");
    for (number = 0; number < 70; number++)
        feed_text(it, "\033P$qm\033\\");
    expect(answers_of(it, room, ANSI_SCREEN_ANSWERS_ROOM, &written, &lost) && lost == 1, "the room has room for all");
    expect(written % 64 == 0 && written > 0, "for 64 of them");
}

static void own_colors(ansi_screen *it)
{
    ansi_colors colors;
    static const ansi_rgb color = {9, 1, 2, 255};

    memset(&colors, 0, sizeof colors);
    colors.cursor = colors.palette[0] = colors.palette[255] = color;
    expect(tell_colors(it, &colors) && ansi_screen_reset(it), "colours are told");
    feed_text(it, "\033]12;?\007\033]4;0;?\007\033]4;255;?\033\\\033]4;1;?\007\033]10;?\007");
    answers_are(it, "\033]12;rgb:0101/0202/ffff\007\033]4;0;rgb:0101/0202/ffff\007\033]4;255;rgb:0101/0202/ffff\033\\", 0,
                "and a reset leaves them");
    memset(&colors, 0, sizeof colors);
    expect(tell_colors(it, &colors), "or none is told");
    feed_text(it, "\033]12;?\007\033]4;0;?\007\033]12;rgb:01/02/03\007\033]12;?\007");
    answers_are(it, "\033]12;rgb:0101/0202/0303\007", 0, "but what a program set");
}

int main(void)
{
    ansi_screen it = {0};

    none_is_held();
    expect(ansi_screen_open(&it, 20, 6), "a screen opens");
    rows(&it);
    losses(&it);
    longest(&it);
    own_colors(&it);
    ansi_screen_close(&it);
    return failures ? 1 : 0;
}
