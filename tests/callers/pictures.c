/* What include/ansi_screen.h says of pictures: types, sizes, answers, and what stands in pictures that were worked by hand.
 * tests/screen_library compiles it as C and as C++, with the sanitizers. Says what is wrong on standard error and ends with status 1. */
#include "ansi_screen.h"

#define CALLER "pictures.c"
#include "expect.h"

#include <assert.h>
#include <string.h>

static_assert(sizeof(ansi_picture) == 8, "the size of how a picture is drawn");
static_assert(offsetof(ansi_picture, scheme) == 0 && offsetof(ansi_picture, shown) == 1, "the first fields stand there");
static_assert(offsetof(ansi_picture, cursor) == 2 && offsetof(ansi_picture, window) == 3, "and the next ones there");

/* The type: with another one this is a warning, and warnings are errors. */
static bool (*const svg_of)(ansi_screen *, const ansi_picture *, const unsigned char *, size_t, const unsigned char *, size_t, unsigned char *, size_t,
                            size_t *) = ansi_screen_svg;

enum { ROOM = 16384, GUARD = 0xA5 };

static unsigned char room[ROOM];

static void feed_text(ansi_screen *screen, const char *text)
{
    expect(ansi_screen_feed(screen, (const unsigned char *)text, strlen(text)), "bytes are taken");
}

static bool answers(ansi_screen *screen, ansi_picture how, const char *title, const char *font, size_t size, size_t *written)
{
    return svg_of(screen, &how, (const unsigned char *)title, strlen(title), (const unsigned char *)font, strlen(font), room, size, written);
}

/* The picture as a string, from just so much room as it takes; what follows in the room stays, and a byte less is told. */
static const char *drawn(ansi_screen *screen, ansi_picture how, const char *title, const char *font)
{
    size_t length = 7, written = 7;

    memset(room, GUARD, sizeof room);
    expect(!answers(screen, how, title, font, 0, &length) && length && length < ROOM - 1, "no room is told, with how much it takes");
    expect(are(room, sizeof room, GUARD), "and nothing is written");
    expect(!answers(screen, how, title, font, length - 1, &written) && written == length, "a byte less is told");
    memset(room, GUARD, sizeof room);
    expect(answers(screen, how, title, font, length, &written) && written == length, "just so much room is enough");
    expect(are(room + length, sizeof room - length, GUARD), "past the picture the room is as it was");
    room[length] = 0;
    return (const char *)room;
}

static bool begins(const char *text, const char *with)
{
    return !strncmp(text, with, strlen(with));
}

static bool ends(const char *text, const char *with)
{
    return strlen(text) >= strlen(with) && !strcmp(text + strlen(text) - strlen(with), with);
}

#define HEAD(view, width, height, font) \
    "<svg xmlns=\"http://www.w3.org/2000/svg\" viewBox=\"" view "\" width=\"" width "\" height=\"" height "\" font-family=\"" font "\""
#define TEXT(x, y, long, text) "<text x=\"" x "\" y=\"" y "\" textLength=\"" long "\">" text "</text>"
#define CURSOR(x, y) "<rect x=\"" x "\" y=\"" y "\" width=\"10\" height=\"20\" class=\"cursor\"></rect>"

/* Four columns and one row. */
static void parts(ansi_screen *it)
{
    const ansi_picture plain = {0, 0, 0, 0, {0}}, light = {1, 0, 0, 0, {0}}, dark = {2, 0, 0, 0, {0}}, framed = {0, 0, 1, 1, {0}};
    char other[ROOM];
    const char *text;
    unsigned char number;

    feed_text(it, "a<");
    text = drawn(it, plain, "", "F");
    expect(begins(text, HEAD("0 0 40 20", "40", "20", "F")), "a picture has the size of the screen, and the fonts");
    expect(ends(text, TEXT("0", "15", "20", "a&lt;") "</svg>"), "and its text");
    expect(strstr(text, "color-scheme:light dark;") && !strstr(text, "<title>"), "it is light or dark, and has no title");
    strcpy(other, text);
    for (number = 3; number; number = number == 255 ? 0 : 255) {
        ansi_picture how = {number, 0, 0, 0, {0}};
        expect(!strcmp(drawn(it, how, "", "F"), other), "any other number is both schemes");
    }
    text = drawn(it, light, "", "");
    expect(strstr(text, "color-scheme:light;") && !strstr(text, "light-dark("), "it is light");
    expect(strstr(text, "DejaVu Sans Mono"), "in the usual fonts");
    text = drawn(it, dark, "t<", "");
    expect(strstr(text, "color-scheme:dark;") && !strstr(text, "light-dark("), "it is dark");
    expect(strstr(text, "<title>t&lt;</title>") && !strstr(text, "class=\"bar\"") && !strstr(text, "class=\"cursor\""), "and has a title, no bar and no cursor");
    text = drawn(it, framed, "t<", "G<");
    expect(begins(text, HEAD("0 -30 40 50", "40", "50", "G&lt;")), "a window is higher by its bar");
    expect(strstr(text, "class=\"name\">t&lt;</text>") && ends(text, TEXT("0", "15", "20", "a&lt;") CURSOR("20", "0") "</svg>"), "with the title, and the cursor");
    feed_text(it, "\033[?25l");
    expect(!strstr(drawn(it, framed, "", ""), "class=\"cursor\""), "a cursor that is hidden is not drawn");
}

/* Two columns and one row, of a screen that keeps two rows: what left, what shows, and the link of a row that left. */
static void rows(ansi_screen *it)
{
    const ansi_picture plain = {0, 0, 0, 0, {0}}, all = {0, 1, 0, 0, {0}}, more = {0, 255, 1, 0, {0}};
    const char *text;

    feed_text(it, "x\r\n\033]8;;http://a\033\\y\033]8;;\033\\\r\nz\r\n");
    text = drawn(it, plain, "", "F");
    expect(begins(text, HEAD("0 0 20 20", "20", "20", "F")) && !strstr(text, "<text"), "what shows is drawn");
    text = drawn(it, all, "", "F");
    expect(begins(text, HEAD("0 0 20 60", "20", "60", "F")) && ends(text, "<a href=\"http://a\">" TEXT("0", "15", "10", "y") "</a>" TEXT("0", "35", "10", "z") "</svg>"),
           "all that showed is drawn, as far as it is kept");
    text = drawn(it, more, "", "F");
    expect(strstr(text, CURSOR("0", "40")) && begins(text, HEAD("0 0 20 60", "20", "60", "F")), "with the cursor below it");
}

int main(void)
{
    const ansi_picture plain = {0, 0, 0, 0, {0}};
    ansi_screen it = {0}, few = {0}, none = {0};
    ansi_screen_options options = {2, 0, {0}};
    size_t written = 7;

    memset(room, GUARD, sizeof room);
    expect(!answers(&none, plain, "", "", sizeof room, &written) && written == 0, "no screen has a picture");
    expect(are(room, sizeof room, GUARD) && !none.held, "and nothing is written");
    expect(ansi_screen_open(&it, 4, 1), "a screen opens");
    written = 7;
    expect(!answers(&it, plain, "a\xff", "", sizeof room, &written) && written == 0, "a title is UTF-8");
    written = 7;
    expect(!answers(&it, plain, "", "\xc3", sizeof room, &written) && written == 0, "and so are fonts");
    expect(are(room, sizeof room, GUARD), "and nothing is written");
    parts(&it);
    expect(ansi_screen_open_with(&few, 2, 1, &options), "one opens that keeps two rows");
    rows(&few);
    ansi_screen_close(&it);
    ansi_screen_close(&few);
    return failures ? 1 : 0;
}
