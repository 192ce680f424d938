/* What include/ansi_shown.h declares, and what a caller rests on: sizes, rows worked by hand, every cut, each allocation failing in turn,
 * what is refused. It answers how many of these are wrong. With the numbers of options it writes what is written of standard input. The
 * linker wraps malloc and realloc. */
#include "ansi_shown.h"
#include "ansi_shown.h" /* (a second time: it guards itself) */

#include <assert.h>
#include <stdio.h>
#include <stdlib.h>
#include <string.h>

#define LOG "Script started [COMMANDS=\"x\" COLUMNS=\"4\" LINES=\"2\"]\n10%\r\x1b[1mabcdef\xff\n\x1b]0;t\x07<"
/* (by hand: the first line is 51 characters, shown on 4 columns, one line; then the row that wrapped, and a byte of no character) */
#define TEXT "Script started [COMMANDS=\"x\" COLUMNS=\"4\" LINES=\"2\"]\nabcdef\xef\xbf\xbd\n<\n"

static_assert(sizeof(ansi_shown) == 8, "");
static_assert(sizeof(ansi_shown_options) == 24, "");

static int wrong;
static long left = -1; /* allocations that go well before one that fails; below 0 none fails */

void *__real_malloc(size_t size);
void *__real_realloc(void *at, size_t size);

static bool fails(void) {
    return left >= 0 && left-- == 0;
}

void *__wrap_malloc(size_t size) {
    return fails() ? NULL : __real_malloc(size);
}

void *__wrap_realloc(void *at, size_t size) {
    return fails() ? NULL : __real_realloc(at, size);
}

static void want(bool is_so, const char *what) {
    if (!is_so) {
        printf("%s\n", what);
        wrong++;
    }
}

static bool has_text(ansi_shown *shown, const char *wanted) {
    unsigned char room[4096];
    size_t written = 7;

    return ansi_shown_text(shown, room, sizeof room, &written) && written == strlen(wanted) && !memcmp(room, wanted, written);
}

static bool fed(ansi_shown *shown, const char *piece, size_t count) {
    return ansi_shown_feed(shown, (const unsigned char *)piece, count);
}

static void cuts(void) {
    ansi_shown shown = {0};
    ansi_shown_options options = {0};

    for (size_t at = 0; at <= strlen(LOG); at++) {
        want(ansi_shown_open(&shown, &options), "a log is opened, in place of another");
        want(fed(&shown, LOG, at) && fed(&shown, &LOG[at], strlen(LOG) - at), "two pieces are taken");
        want(has_text(&shown, ""), "before the end nothing is written");
        want(ansi_shown_end(&shown) && has_text(&shown, TEXT), "however a log is cut, this is shown of it");
    }
    want(ansi_shown_open(&shown, &options), "a log is opened");
    for (size_t at = 0; at < strlen(LOG); at++)
        want(fed(&shown, &LOG[at], 1), "a byte is taken");
    want(ansi_shown_end(&shown) && has_text(&shown, TEXT), "byte by byte the same");
    want(!fed(&shown, LOG, 1) && !ansi_shown_end(&shown) && has_text(&shown, TEXT), "after the end nothing happens");
    ansi_shown_close(&shown);
    ansi_shown_close(&shown);
}

static void forms(void) {
    ansi_shown shown = {0};
    ansi_shown_options options = {.columns = 80, .rows = 24, .form = ANSI_SHOWN_SAFE};

    want(ansi_shown_open(&shown, &options) && fed(&shown, "a\xe2\x80\xae<", 5) && ansi_shown_end(&shown), "safe text is made");
    want(has_text(&shown, "a<U+202E><\n"), "and hides nothing");
    options.form = ANSI_SHOWN_HTML, options.styling = 3;
    want(ansi_shown_open(&shown, &options) && fed(&shown, "\x1b[1m<", 5) && ansi_shown_end(&shown), "HTML is made");
    want(has_text(&shown, "<span class=\"ansi-bold\">&lt;</span>\n"), "by classes");
    options.form = 9;
    want(ansi_shown_open(&shown, &options) && fed(&shown, "\x1b[1m<", 5) && ansi_shown_end(&shown) && has_text(&shown, "<\n"), "any other number is text");
    ansi_shown_close(&shown);
}

/* (by hand: what an option adds; with all of them of a screen, and of the log itself) */
static void options_tried(void) {
    static const struct {
        ansi_shown_options options;
        const char *wanted;
    } rows[] = {
        {{.form = ANSI_SHOWN_TEXT, .no_hidden = 1}, "http://a\n"},
        {{.form = ANSI_SHOWN_SAFE, .no_hidden = 255}, "http://a\n"},
        {{.form = ANSI_SHOWN_TEXT, .no_screen = 1}, "abc\rhttp://a"},
        {{.form = ANSI_SHOWN_TEXT, .no_screen = 1, .no_hidden = 1}, "ac\rhttp://a"},
        {{.form = ANSI_SHOWN_TEXT, .no_screen = 1, .columns = 1}, "abc\rhttp://a"},
        {{.form = ANSI_SHOWN_SAFE, .no_screen = 1, .no_hidden = 1}, "ac<U+000D>http://a"},
        {{.form = ANSI_SHOWN_HTML, .urls = 2}, "<a rel=\"nofollow noreferrer\" href=\"http://a\" style=\"color:inherit;\">http://a</a>\n"},
        {{.form = ANSI_SHOWN_HTML, .lines = 1}, "<span id=\"L1\"><a href=\"#L1\" data-line=\"1\"></a>http://a\n</span>"},
        {{.form = ANSI_SHOWN_HTML, .no_hidden = 1}, "http://a\n"},
        {{.form = ANSI_SHOWN_HTML, .styling = 3, .no_screen = 1, .no_hidden = 1}, "ac&#13;<br>http://a"},
    };
    ansi_shown shown = {0};

    for (size_t at = 0; at < sizeof rows / sizeof rows[0]; at++) {
        const char *log = "a\x1b[8mb\x1b[28mc\rhttp://a";
        want(ansi_shown_open(&shown, &rows[at].options) && fed(&shown, log, strlen(log)) && ansi_shown_end(&shown), "an option is taken");
        if (!has_text(&shown, rows[at].wanted))
            printf("row %zu: ", at);
        want(has_text(&shown, rows[at].wanted), "and does what it says");
    }
    ansi_shown_close(&shown);
}

static void refused(void) {
    static const size_t sizes[][2] = {{0, 1}, {1, 0}, {1, 1}, {2, 0}, {1001, 24}, {80, 1001}, {(size_t)-1, 24}, {0, 24}, {80, 0}};
    ansi_shown shown = {0};
    ansi_shown_options options = {0};
    unsigned char room[4] = "abc";
    size_t written = 7;

    want(!fed(&shown, "a", 1) && !ansi_shown_end(&shown), "no log is held");
    want(!ansi_shown_text(&shown, room, 3, &written) && written == 0 && !memcmp(room, "abc", 4), "nor is read");
    for (size_t at = 0; at < sizeof sizes / sizeof sizes[0]; at++) {
        options.columns = sizes[at][0], options.rows = sizes[at][1];
        want(!ansi_shown_open(&shown, &options) && !shown.held, "no screen has this size");
    }
    options.columns = 2, options.rows = 1;
    want(ansi_shown_open(&shown, &options) && fed(&shown, "abc", 3) && ansi_shown_end(&shown), "the least size");
    want(!ansi_shown_text(&shown, room, 3, &written) && written == 4 && !memcmp(room, "abc", 4), "the room is too small");
    want(ansi_shown_text(&shown, room, 4, &written) && written == 4 && !memcmp(room, "abc\n", 4), "and suffices");
    options.columns = 1000, options.rows = 1000;
    want(ansi_shown_open(&shown, &options), "the greatest size");
    ansi_shown_close(&shown);
}

/* It answers whether no allocation failed. */
static bool ran(uint8_t form, uint8_t more) {
    ansi_shown shown = {0};
    ansi_shown_options options = {.form = form, .lines = more & 1, .urls = more & 2, .no_hidden = more & 4, .no_screen = more & 8};
    bool is_open = ansi_shown_open(&shown, &options);
    bool went_well = is_open && fed(&shown, LOG, 60) && fed(&shown, &LOG[60], strlen(LOG) - 60) && ansi_shown_end(&shown);

    left = -1;
    if (!went_well && is_open) {
        want(!fed(&shown, LOG, 1) && !ansi_shown_end(&shown), "where memory was wanting, no more is taken");
        want(has_text(&shown, ""), "and nothing is written");
    }
    if (went_well && form == ANSI_SHOWN_TEXT && more < 4)
        want(has_text(&shown, TEXT), "what goes well is whole");
    ansi_shown_close(&shown);
    return went_well;
}

static void without_memory(void) {
    for (int kind = 0; kind < 3 * 16; kind++) {
        long count = 0;
        do
            left = count++;
        while (count < 1000 && !ran((uint8_t)(kind / 16), kind % 16));
        want(count > 3 && count < 1000, "several allocations can fail");
    }
}

/* The numbers are those of form, lines, urls, no_hidden and no_screen, for a screen of 120 columns and 40 rows. */
static bool filters(char **numbers) {
    static unsigned char piece[65536];
    ansi_shown shown = {0};
    ansi_shown_options options = {.columns = 120, .rows = 40};
    uint8_t *const asked[] = {&options.form, &options.lines, &options.urls, &options.no_hidden, &options.no_screen};
    unsigned char *text;
    size_t count, written = 0;
    bool is_well;

    for (size_t at = 0; at < sizeof asked / sizeof asked[0]; at++)
        *asked[at] = (uint8_t)atoi(numbers[at]);
    is_well = ansi_shown_open(&shown, &options);
    while (is_well && (count = fread(piece, 1, sizeof piece, stdin)))
        is_well = ansi_shown_feed(&shown, piece, count);
    is_well = is_well && ansi_shown_end(&shown);
    (void)ansi_shown_text(&shown, piece, 0, &written);
    text = malloc(written + 1);
    is_well = is_well && text && ansi_shown_text(&shown, text, written, &written) && fwrite(text, 1, written, stdout) == written;
    free(text);
    ansi_shown_close(&shown);
    return is_well;
}

int main(int count, char **words) {
    if (count == 6)
        return !filters(&words[1]);
    cuts();
    forms();
    options_tried();
    refused();
    without_memory();
    return wrong != 0;
}
