/* What include/ansi_screen.h declares, and what a caller rests on: sizes, types, rows of cells and of text worked by
 * hand, answers that are false, and memory. tests/screen_library compiles it as C and as C++, with the sanitizers, and
 * runs it by valgrind. With a number it opens and closes so many screens. Says what is wrong on standard error and ends
 * with status 1. */
#include "ansi_screen.h"
#include "ansi_screen.h" /* (a second time: it guards itself) */
#include "ansi_strip.h"  /* (and these stand beside it) */
#include "ansi_html.h"
#include "ansi_events.h"

#define CALLER "screen.c"
#include "expect.h"

#include <assert.h>
#include <stdio.h>
#include <stdlib.h>
#include <string.h>

static_assert(sizeof(ansi_screen) == 8, "a screen is a pointer");
static_assert(sizeof(ansi_color) == 4, "a colour is bytes");
static_assert(sizeof(ansi_style) == 25, "and so is a style");
static_assert(offsetof(ansi_style, background) == 4 && offsetof(ansi_style, underline) == 8, "colours are first");
static_assert(offsetof(ansi_style, bold) == 9 && offsetof(ansi_style, overlined) == 16, "attributes stand in order");
static_assert(offsetof(ansi_style, reserved) == 17, "and eight bytes are not used");
static_assert(sizeof(ansi_cell) == 52, "a cell has 52 bytes");
static_assert(offsetof(ansi_cell, style) == 16, "of which its style stands after its numbers");
static_assert(offsetof(ansi_cell, marks) == 4 && offsetof(ansi_cell, link) == 12, "numbers are first");
static_assert(offsetof(ansi_cell, mark_count) == 41 && offsetof(ansi_cell, goes_on) == 43, "bytes are last");
static_assert(offsetof(ansi_cell, reserved) == 44, "of which eight are not used");
static_assert(sizeof(ansi_modes) == 16, "modes have 16 bytes");
static_assert(sizeof(ansi_screen_options) == 64, "options have 64 bytes");
static_assert(offsetof(ansi_modes, reserved) == 15 && offsetof(ansi_modes, mouse) == 7, "of which one is not used");
static_assert(sizeof(ansi_key) == 12, "a key has 12 bytes");
static_assert(offsetof(ansi_key, key) == 8 && offsetof(ansi_key, event) == 10, "of which its numbers are last");
static_assert(sizeof(ansi_mouse) == 12, "and so has the mouse");
static_assert(offsetof(ansi_mouse, action) == 8 && offsetof(ansi_mouse, modifiers) == 10, "of which places are first");
static_assert(ANSI_SCREEN_ROW_ROOM(1 + 1) == 24 && ANSI_SCREEN_TEXT_ROOM(80, 24) == 23064, "rooms are as they are said");
static_assert(ANSI_SCREEN_TEXT_ROOM(1 + 1, 1 + 1) == 50, "arguments stand in brackets");
static_assert(ANSI_SCREEN_LINK_ROOM == 1035 && ANSI_SCREEN_TITLE_ROOM == 1024 && ANSI_SCREEN_KEY_ROOM == 64, "and so are these");

/* The types: with another one this is a warning, and warnings are errors. */
static bool (*const open_screen)(ansi_screen *, size_t, size_t) = ansi_screen_open;
static void (*const close_screen)(ansi_screen *) = ansi_screen_close;
static bool (*const reset)(ansi_screen *) = ansi_screen_reset;
static bool (*const feed)(ansi_screen *, const unsigned char *, size_t) = ansi_screen_feed;
static bool (*const size_of)(ansi_screen *, size_t *, size_t *) = ansi_screen_size;
static bool (*const cursor_of)(ansi_screen *, size_t *, size_t *) = ansi_screen_cursor;
static bool (*const style_of)(ansi_screen *, ansi_style *) = ansi_screen_style;
static bool (*const modes_of)(ansi_screen *, ansi_modes *) = ansi_screen_modes;
static bool (*const cell_of)(ansi_screen *, size_t, size_t, ansi_cell *) = ansi_screen_cell;
static bool (*const row_of)(ansi_screen *, size_t, ansi_cell *, size_t) = ansi_screen_row;
static bool (*const changed)(ansi_screen *, size_t, size_t *, size_t *) = ansi_screen_changed;
static bool (*const forget)(ansi_screen *) = ansi_screen_forget;
static bool (*const row_text)(ansi_screen *, size_t, unsigned char *, size_t, size_t *) = ansi_screen_row_text;
static bool (*const part_text)(ansi_screen *, size_t, size_t, size_t, unsigned char *, size_t,
                               size_t *) = ansi_screen_part_text;
static bool (*const text_of)(ansi_screen *, unsigned char *, size_t, size_t *) = ansi_screen_text;
static bool (*const draw)(ansi_screen *, unsigned char *, size_t, size_t *) = ansi_screen_draw;
static bool (*const update)(ansi_screen *, ansi_screen *, unsigned char *, size_t, size_t *) = ansi_screen_update;
static bool (*const link_of)(ansi_screen *, uint32_t, unsigned char *, size_t, size_t *) = ansi_screen_link;
static bool (*const html_of)(ansi_screen *, unsigned char, unsigned char *, size_t, size_t *) = ansi_screen_html;
static bool (*const copy_of)(ansi_screen *, ansi_screen *) = ansi_screen_copy;
static bool (*const are_equal)(ansi_screen *, ansi_screen *) = ansi_screen_equal;
static bool (*const open_with)(ansi_screen *, size_t, size_t, const ansi_screen_options *) = ansi_screen_open_with;
static bool (*const history_of)(ansi_screen *, size_t *, size_t *) = ansi_screen_history;
static bool (*const kept_row)(ansi_screen *, size_t, ansi_cell *, size_t) = ansi_screen_history_row;
static bool (*const kept_text)(ansi_screen *, size_t, unsigned char *, size_t, size_t *) = ansi_screen_history_text;

static bool (*const asked_of)(ansi_screen *, uint16_t *) = ansi_screen_asked;
static bool (*const title_of)(ansi_screen *, unsigned char *, size_t, size_t *) = ansi_screen_title;
static bool (*const key_of)(ansi_screen *, const ansi_key *, unsigned char *, size_t, size_t *) = ansi_screen_key;
static bool (*const mouse_of)(ansi_screen *, const ansi_mouse *, unsigned char *, size_t, size_t *) = ansi_screen_mouse;
static bool (*const paste_of)(ansi_screen *, const unsigned char *, size_t, unsigned char *, size_t, size_t *) = ansi_screen_paste;
static bool (*const focus_of)(ansi_screen *, unsigned char, unsigned char *, size_t, size_t *) = ansi_screen_focus;

enum { ROOM = 4096, GUARD = 0xA5 };

static ansi_screen opened(size_t columns, size_t rows)
{
    ansi_screen it = {0};

    expect(open_screen(&it, columns, rows), "a screen opens");
    return it;
}

static void feed_text(ansi_screen *screen, const char *text)
{
    expect(feed(screen, (const unsigned char *)text, strlen(text)), "bytes are taken");
}

/* What a screen is asked for: all of its text, that of a row or of one that left, the URI of a link, its HTML in a styling, its title; and
 * what a program reads of the cursor key up, with what is held, of the left button of the mouse, of a paste of a number of bytes, and
 * of the focus. */
enum asked { TEXT, ROW, KEPT, LINK, HTML, TITLE, UP, LEFT, PASTE, FOCUS };

static const unsigned char PASTED[] = "a\033[201~\tb";

static bool answers(enum asked what, ansi_screen *screen, size_t number, unsigned char *room, size_t size, size_t *written)
{
    ansi_key key = {0, 0, ANSI_KEY_UP, 0, ANSI_EVENT_PRESS, 0};
    ansi_mouse mouse = {4, 2, 0, 0, 0, 1, 0, 0};

    switch (what) {
    case TEXT: return text_of(screen, room, size, written);
    case ROW: return row_text(screen, number, room, size, written);
    case KEPT: return kept_text(screen, number, room, size, written);
    case LINK: return link_of(screen, (uint32_t)number, room, size, written);
    case HTML: return html_of(screen, (unsigned char)number, room, size, written);
    case TITLE: return title_of(screen, room, size, written);
    case UP: key.modifiers = (uint8_t)number; return key_of(screen, &key, room, size, written);
    case LEFT: mouse.action = (uint8_t)number; return mouse_of(screen, &mouse, room, size, written);
    case PASTE: return paste_of(screen, PASTED, number, room, size, written);
    case FOCUS: return focus_of(screen, (unsigned char)number, room, size, written);
    }
    return false;
}

/* The answer is this text: in a room of this size, and in one of just so many bytes, and past it each is as it was. One byte less is
 * told, with what it takes, and so is no room at all. */
static void answer_is(enum asked asked, ansi_screen *screen, size_t number, size_t size, const char *wanted, const char *what)
{
    unsigned char room[ROOM];
    size_t length = strlen(wanted), written;
    int turn;

    for (turn = 0; turn < 2; turn++) {
        memset(room, GUARD, sizeof room);
        written = 7;
        expect(answers(asked, screen, number, room, turn ? length : size, &written) && written == length, what);
        expect(!memcmp(room, wanted, length), what);
        expect(are(room + length, sizeof room - length, GUARD), "past what is written the room is as it was");
    }
    if (length) {
        expect(!answers(asked, screen, number, room, length - 1, &written) && written == length, "a byte less is told, with what it takes");
        expect(room[length] == GUARD, "and nothing stands past the room");
        expect(!answers(asked, screen, number, room, 0, &written) && written == length, "no room at all too");
    }
}

static void shows(ansi_screen *screen, const char *wanted, const char *what)
{
    answer_is(TEXT, screen, 0, ROOM, wanted, what);
}

static void row_is(ansi_screen *screen, size_t row, const char *wanted, const char *what)
{
    answer_is(ROW, screen, row, ROOM, wanted, what);
}

static void part_is(ansi_screen *screen, size_t row, size_t start, size_t end, const char *wanted)
{
    unsigned char room[ROOM];
    size_t length = strlen(wanted), written = 7;

    memset(room, GUARD, sizeof room);
    expect(part_text(screen, row, start, end, room, length, &written), "a part of a row fits its own length");
    expect(written == length && !memcmp(room, wanted, length), wanted);
    expect(are(room + length, sizeof room - length, GUARD), "past a part the room is as it was");
    if (length)
        expect(!part_text(screen, row, start, end, room, length - 1, &written) && written == length, "a byte less is told");
}

static bool at(ansi_screen *screen, size_t row, size_t column)
{
    size_t found_row = 77, found_column = 77;

    return cursor_of(screen, &found_row, &found_column) && found_row == row && found_column == column;
}

/* What is reserved of so many cells is 0. */
static bool is_reserved(const ansi_cell *cells, size_t count)
{
    size_t place;

    for (place = 0; place < count; place++) {
        if (!are(cells[place].reserved, 8, 0) || !are(cells[place].style.reserved, 8, 0))
            return false;
    }
    return true;
}

static ansi_cell cell(ansi_screen *screen, size_t row, size_t column)
{
    ansi_cell it;

    memset(&it, GUARD, sizeof it);
    expect(cell_of(screen, row, column, &it) && is_reserved(&it, 1), "a cell is there");
    return it;
}

static bool is_color(ansi_color color, unsigned kind, unsigned first, unsigned second, unsigned third)
{
    return color.kind == kind && color.values[0] == first && color.values[1] == second && color.values[2] == third;
}

static void sizes(void)
{
    static const size_t refused[][2] = {{0, 0}, {1, 1}, {2, 0}, {1001, 1}, {2, 1001}, {(size_t)-1, 2}, {2, (size_t)-1}};
    static const size_t taken[][2] = {{2, 1}, {80, 24}, {1000, 1}, {2, 1000}, {1000, 1000}};
    size_t i, columns, rows;

    for (i = 0; i < sizeof refused / sizeof *refused; i++) {
        ansi_screen it = {0};
        expect(!open_screen(&it, refused[i][0], refused[i][1]) && !it.held, "no such size opens");
    }
    for (i = 0; i < sizeof taken / sizeof *taken; i++) {
        ansi_screen it = opened(taken[i][0], taken[i][1]);
        expect(size_of(&it, &columns, &rows) && columns == taken[i][0] && rows == taken[i][1], "it has the size asked for");
        close_screen(&it);
        expect(!it.held, "a screen that is closed is none");
        close_screen(&it);
    }
}

static void none_is_held(void)
{
    ansi_screen it = {0};
    unsigned char room[8];
    ansi_cell cells[4];
    ansi_style style;
    ansi_modes modes;
    size_t one = 7, two = 8;

    memset(room, GUARD, sizeof room);
    memset(cells, GUARD, sizeof cells);
    memset(&style, GUARD, sizeof style);
    memset(&modes, GUARD, sizeof modes);
    expect(!reset(&it) && !feed(&it, room, sizeof room), "no screen takes bytes");
    expect(!size_of(&it, &one, &two) && one == 7 && two == 8, "no screen has a size");
    expect(!cursor_of(&it, &one, &two) && one == 7 && two == 8, "no screen has a cursor");
    expect(!changed(&it, 0, &one, &two) && one == 7 && two == 8 && !forget(&it), "no screen has changed, nor forgets it");
    expect(!style_of(&it, &style) && are((unsigned char *)&style, sizeof style, GUARD), "no screen has a style");
    expect(!modes_of(&it, &modes) && are((unsigned char *)&modes, sizeof modes, GUARD), "no screen has modes");
    expect(!cell_of(&it, 0, 0, cells) && !row_of(&it, 0, cells, 4), "no screen has cells");
    expect(are((unsigned char *)cells, sizeof cells, GUARD), "and none is written");
    expect(!text_of(&it, room, sizeof room, &one) && one == 0, "no screen has text");
    one = 7;
    expect(!row_text(&it, 0, room, sizeof room, &one) && one == 0, "nor has a row");
    one = 7;
    expect(!part_text(&it, 0, 0, 1, room, sizeof room, &one) && one == 0, "nor has a part");
    expect(are(room, sizeof room, GUARD) && !it.held, "and nothing is written");
    close_screen(&it);
}

static void rows_of_text(void)
{
    ansi_screen it = opened(8, 4);

    shows(&it, "", "a new screen shows nothing");
    expect(at(&it, 0, 0), "its cursor is at the top left");
    feed_text(&it, "one\r\n  two  \033[4;7Hx");
    shows(&it, "one\n  two\n\n      x\n", "rows have no blanks at their ends");
    row_is(&it, 1, "  two", "a row has none");
    row_is(&it, 2, "", "a blank row is empty");
    expect(at(&it, 3, 7), "the cursor is past what was printed");
    part_is(&it, 1, 0, 8, "  two   ");
    part_is(&it, 1, 3, 5, "wo");
    part_is(&it, 1, 8, 8, "");
    part_is(&it, 0, 0, 1, "o");
    close_screen(&it);
}

static void outside(void)
{
    ansi_screen it = opened(8, 4);
    unsigned char room[ROOM];
    ansi_cell cells[8];
    size_t written = 7;

    memset(room, GUARD, sizeof room);
    memset(cells, GUARD, sizeof cells);
    expect(!row_text(&it, 4, room, sizeof room, &written) && written == 0, "there is no fifth row");
    written = 7;
    expect(!part_text(&it, 4, 0, 1, room, sizeof room, &written) && written == 0, "nor a part of it");
    expect(!part_text(&it, 0, 0, 9, room, sizeof room, &written), "nor a ninth column");
    expect(!part_text(&it, 0, 3, 2, room, sizeof room, &written), "no part ends before it starts");
    expect(!part_text(&it, (size_t)-1, 0, 0, room, sizeof room, &written), "nor in the last row of all");
    expect(!cell_of(&it, 4, 0, cells) && !cell_of(&it, 0, 8, cells), "no cell stands outside");
    expect(!row_of(&it, 4, cells, 8) && !row_of(&it, 0, cells, 7), "no row either, nor one without room");
    expect(are(room, sizeof room, GUARD) && are((unsigned char *)cells, sizeof cells, GUARD), "nothing is written");
    expect(row_of(&it, 3, cells, 8), "a row has its room");
    close_screen(&it);
}

static void cells_and_styles(void)
{
    ansi_screen it = opened(6, 3);
    ansi_cell one, row[8];
    ansi_style style;

    feed_text(&it, "\033[1;3;31;48;5;7;4:3mh\033[0;2;5;7;8;9;53;96;48;2;1;2;3mi\033[21me\xcc\x81\xcc\xa8\033[0m\xe4\xb8\xad");
    one = cell(&it, 0, 0);
    expect(one.character == 'h' && one.part == ANSI_PART_WHOLE && !one.mark_count && !one.goes_on && !one.link, "h is h");
    expect(is_color(one.style.foreground, ANSI_COLOR_NAMED, 1, 0, 0), "31 is red");
    expect(is_color(one.style.background, ANSI_COLOR_INDEXED, 7, 0, 0), "48;5;7 is the eighth of the 256");
    expect(one.style.bold == 1 && one.style.italic == 1 && one.style.underline == ANSI_UNDERLINE_CURLY, "1;3;4:3");
    expect(!one.style.dim && !one.style.blink && !one.style.reverse && !one.style.hidden, "and nothing else");
    expect(!one.style.struck_out && !one.style.overlined, "and nothing else");
    one = cell(&it, 0, 1);
    expect(one.character == 'i' && is_color(one.style.foreground, ANSI_COLOR_BRIGHT, 6, 0, 0), "96 is bright cyan");
    expect(is_color(one.style.background, ANSI_COLOR_DIRECT, 1, 2, 3), "48;2 is by red, green and blue");
    expect(one.style.dim == 1 && one.style.blink == 1 && one.style.reverse == 1 && one.style.hidden == 1, "2;5;7;8");
    expect(one.style.struck_out == 1 && one.style.overlined == 1 && !one.style.bold && !one.style.italic, "9;53");
    expect(one.style.underline == ANSI_UNDERLINE_OFF, "0 ends underlining");
    one = cell(&it, 0, 2);
    expect(one.mark_count == 2 && one.marks[0] == 0x301 && one.marks[1] == 0x328, "marks stand on their character");
    expect(one.style.underline == ANSI_UNDERLINE_DOUBLE, "21 is a double underline");
    one = cell(&it, 0, 3);
    expect(one.character == 0x4E2D && one.part == ANSI_PART_LEFT, "a wide character has a left half");
    one = cell(&it, 0, 4);
    expect(one.character == ' ' && one.part == ANSI_PART_RIGHT, "and a right one");
    one = cell(&it, 0, 5);
    expect(one.character == ' ' && one.part == ANSI_PART_EMPTY && is_color(one.style.foreground, 0, 0, 0, 0), "a blank");
    row_is(&it, 0, "hie\xcc\x81\xcc\xa8\xe4\xb8\xad", "a row has marks and wide characters once");
    part_is(&it, 0, 4, 5, "");
    memset(row, GUARD, sizeof row);
    expect(row_of(&it, 0, row, 8) && is_reserved(row, 6), "a row is written");
    expect(row[3].character == 0x4E2D && row[1].character == 'i' && row[5].part == ANSI_PART_EMPTY, "as its cells");
    expect(are((unsigned char *)(row + 6), 2 * sizeof *row, GUARD), "and no further");
    memset(&style, GUARD, sizeof style);
    feed_text(&it, "\033[3;94;45m");
    expect(style_of(&it, &style) && style.italic == 1 && is_color(style.foreground, ANSI_COLOR_BRIGHT, 4, 0, 0), "94");
    expect(is_color(style.background, ANSI_COLOR_NAMED, 5, 0, 0) && !style.bold && are(style.reserved, 8, 0), "45");
    close_screen(&it);
}

/* Of each of four rows what can have changed, from a column up to another; none where they are the same. Then it is forgotten. */
static void changes_are(ansi_screen *screen, const size_t wanted[4][2], const char *what)
{
    size_t row, first, past;

    for (row = 0; row < 4; row++) {
        first = past = 77;
        expect(changed(screen, row, &first, &past) && first <= past && past <= 8, "what can have changed is within a row");
        if (wanted[row][0] == wanted[row][1])
            expect(first == past, what);
        else
            expect(first == wanted[row][0] && past == wanted[row][1], what);
    }
    expect(forget(screen), "it is forgotten");
}

static void changes(void)
{
    static const size_t all[4][2] = {{0, 8}, {0, 8}, {0, 8}, {0, 8}}, none[4][2] = {{0, 0}, {0, 0}, {0, 0}, {0, 0}};
    static const size_t letter[4][2] = {{0, 0}, {0, 0}, {4, 7}, {0, 0}}, edges[4][2] = {{0, 2}, {6, 8}, {0, 0}, {0, 8}};
    static const size_t end[4][2] = {{0, 0}, {1, 8}, {0, 0}, {0, 0}}, wide[4][2] = {{0, 0}, {0, 0}, {1, 5}, {0, 0}};
    static const size_t twice[4][2] = {{2, 5}, {0, 0}, {0, 0}, {3, 6}}, of_copy[4][2] = {{0, 2}, {0, 0}, {0, 0}, {0, 0}};
    ansi_screen it = opened(8, 4), copy = {0};
    size_t first = 7, past = 9;

    changes_are(&it, all, "of a new screen all can have changed");
    changes_are(&it, none, "and nothing once it is forgotten");
    feed_text(&it, "\033[3;6Hx");
    changes_are(&it, letter, "a letter, and one column on each side");
    feed_text(&it, "a");
    expect(!changed(&it, 4, &first, &past) && !changed(&it, (size_t)-1, &first, &past), "there is no fifth row, nor any other");
    expect(first == 7 && past == 9, "and nothing is written of it");
    expect(forget(&it) && at(&it, 2, 7), "the cursor stays");
    feed_text(&it, "\033[1;1Ha\033[2;8Hb\033[4;1Hc\033[4;8Hd");
    changes_are(&it, edges, "no column is beyond the edges");
    feed_text(&it, "\033[2;3H\033[K");
    changes_are(&it, end, "the end of a row is erased");
    feed_text(&it, "\033[3;3H\xe4\xb8\xad");
    changes_are(&it, wide, "a wide character has two columns");
    feed_text(&it, "\033[31m\033[4h\033[4l\033[?25l\033[4;2H\0337\033[3");
    changes_are(&it, none, "the cursor, styles and modes do not count");
    feed_text(&it, ";1H\033[4;8H\033D");
    changes_are(&it, all, "all rows move, and what was begun goes on");
    feed_text(&it, "\033[1;4Hx\033[4;5Hy");
    expect(copy_of(&copy, &it), "it is copied");
    feed_text(&copy, "\033[1;1Hz");
    changes_are(&copy, of_copy, "a copy tells what changed since");
    changes_are(&it, twice, "and the screen all of it");
    expect(reset(&it), "it is reset");
    changes_are(&it, all, "by which all can have changed");
    shows(&it, "", "and it is blank");
    close_screen(&it);
    close_screen(&copy);
}

static void wraps_and_links(void)
{
    ansi_screen it = opened(4, 3);

    feed_text(&it, "abcd");
    expect(at(&it, 0, 4), "past the last column a wrap is pending");
    expect(!cell(&it, 0, 3).goes_on, "which nothing has settled yet");
    feed_text(&it, "e\033]8;;http://a/\033\\f\033]8;;\033\\g\033]8;;http://a/\007h");
    expect(cell(&it, 0, 3).goes_on == 1 && !cell(&it, 1, 0).goes_on, "a row goes on");
    expect(cell(&it, 1, 0).link == 0 && cell(&it, 1, 1).link == 1 && cell(&it, 1, 2).link == 0, "a link has a number");
    expect(cell(&it, 1, 3).link == 2, "the next has the next");
    shows(&it, "abcd\nefgh\n", "rows that go on stand each by itself");
    close_screen(&it);
}

static void modes(void)
{
    ansi_screen it = opened(4, 3);
    ansi_modes on;

    memset(&on, GUARD, sizeof on);
    expect(modes_of(&it, &on), "a screen has modes");
    expect(on.cursor_shown == 1 && on.autowrap == 1, "at first the cursor is shown and autowrap is on");
    expect(!on.alternate_screen && !on.insert && !on.origin && are((unsigned char *)&on + 5, 11, 0), "and nothing else");
    feed_text(&it, "\033[?25l");
    expect(modes_of(&it, &on) && !on.cursor_shown && on.autowrap == 1, "?25l hides the cursor");
    feed_text(&it, "\033[?25h\033[?7l");
    expect(modes_of(&it, &on) && on.cursor_shown == 1 && !on.autowrap, "?7l ends autowrap");
    feed_text(&it, "\033[4h");
    expect(modes_of(&it, &on) && on.insert == 1 && !on.origin, "4h inserts");
    feed_text(&it, "\033[?6h");
    expect(modes_of(&it, &on) && on.origin == 1 && !on.alternate_screen, "?6h counts from the margin");
    feed_text(&it, "x\033[?1049h");
    expect(modes_of(&it, &on) && on.alternate_screen == 1, "1049 shows the alternate screen");
    shows(&it, "", "which is blank");
    close_screen(&it);
}

/* Cut anywhere, a stream leads to the same. */
/* What was asked for beside the screen, and what a program reads by it: by xterm's ctlseqs. */
static void asks(void)
{
    ansi_screen it = opened(4, 3), none = {0};
    unsigned char room[ROOM];
    uint16_t bits = 7;
    size_t written = 7;
    ansi_modes on;

    expect(!asked_of(&none, &bits) && bits == 7, "no screen is asked for anything");
    expect(!title_of(&none, room, sizeof room, &written) && !written, "nor has it a title");
    expect(asked_of(&it, &bits) && !bits, "of a new screen nothing is asked");
    answer_is(TITLE, &it, 0, ROOM, "", "it has no title");
    answer_is(UP, &it, 0, ROOM, "\033[A", "a cursor key is told");
    answer_is(LEFT, &it, ANSI_MOUSE_PRESS, ROOM, "", "the mouse is not");
    answer_is(FOCUS, &it, 1, ROOM, "", "nor the focus");
    answer_is(PASTE, &it, sizeof PASTED - 1, ROOM, "a[201~\tb", "a paste has no controls");
    feed_text(&it, "\033[?1;5;1002;1004;1006;2004;2026h\033[5 q\033[>3u\033]2;one");
    feed_text(&it, " two\007");
    expect(asked_of(&it, &bits), "it is asked for more");
    expect(bits == (ANSI_ASKED_KEYS | ANSI_ASKED_MOUSE | ANSI_ASKED_FOCUS | ANSI_ASKED_PASTE | ANSI_ASKED_SYNCHRONIZED | ANSI_ASKED_REVERSE
                    | ANSI_ASKED_CURSOR | ANSI_ASKED_TITLE), "and tells what");
    expect(asked_of(&it, &bits) && !bits, "once");
    expect(modes_of(&it, &on) && on.cursor_keys == 1 && on.key_flags == 3 && on.mouse == 3 && on.mouse_encoding == 1, "keys and mouse");
    expect(on.focus == 1 && on.paste == 1 && on.synchronized == 1 && on.reverse == 1, "what is on");
    expect(on.cursor_shape == 3 && on.cursor_blinks == 1 && !on.reserved[0] && on.autowrap == 1, "and the cursor");
    answer_is(TITLE, &it, 0, ROOM, "one two", "the title comes in pieces too");
    feed_text(&it, "\033[<u");
    answer_is(UP, &it, 0, ROOM, "\033OA", "an application's cursor key");
    answer_is(UP, &it, ANSI_HELD_CONTROL, ROOM, "\033[1;5A", "and with Control");
    answer_is(LEFT, &it, ANSI_MOUSE_PRESS, ROOM, "\033[<0;5;3M", "a button");
    answer_is(LEFT, &it, ANSI_MOUSE_RELEASE, ROOM, "\033[<0;5;3m", "is released");
    answer_is(LEFT, &it, 0, ROOM, "", "or nothing");
    answer_is(FOCUS, &it, 1, ROOM, "\033[I", "the focus comes");
    answer_is(FOCUS, &it, 0, ROOM, "\033[O", "and goes");
    answer_is(PASTE, &it, 1, ROOM, "\033[200~a\033[201~", "a paste in brackets");
    expect(!paste_of(&it, (const unsigned char *)"\xff", 1, room, sizeof room, &written) && !written, "no UTF-8 is not pasted");
    expect(reset(&it) && asked_of(&it, &bits) && bits == 8191, "after a reset all counts as set");
    answer_is(TITLE, &it, 0, ROOM, "", "and there is no title");
    close_screen(&it);
}

static void pieces(void)
{
    static const char stream[] = "\033[31mred\033[0m\xe4\xb8\xad\r\n\033]0;title\007\033[2;3Hx\033[38;2;1;2;3my\xcc\x81";
    unsigned char room[ROOM], other[ROOM];
    size_t cut, i, written, as_much;
    ansi_cell row[10], same[10];
    ansi_screen whole = opened(10, 4);

    feed_text(&whole, stream);
    expect(text_of(&whole, room, sizeof room, &written), "the whole has text");
    for (cut = 0; cut < sizeof stream; cut++) {
        ansi_screen it = opened(10, 4);

        expect(feed(&it, (const unsigned char *)stream, cut), "a piece is taken");
        expect(feed(&it, (const unsigned char *)stream + cut, sizeof stream - 1 - cut), "and the next");
        expect(text_of(&it, other, sizeof other, &as_much) && as_much == written && !memcmp(room, other, written),
               "two pieces show what the whole shows");
        for (i = 0; i < 4; i++)
            expect(row_of(&whole, i, row, 10) && row_of(&it, i, same, 10) && !memcmp(row, same, sizeof row), "in its cells");
        close_screen(&it);
    }
    close_screen(&whole);
}

static void resets(void)
{
    ansi_screen it = opened(6, 3);
    ansi_modes on;

    feed_text(&it, "\033[?25l\033[31mabc\033[?1049hxyz\033[2;3r\033[4;");
    expect(reset(&it), "a screen is reset");
    feed_text(&it, "7mx");
    shows(&it, "7mx\n", "what was begun is forgotten, and all that showed");
    expect(is_color(cell(&it, 0, 0).style.foreground, 0, 0, 0, 0), "the style too");
    expect(modes_of(&it, &on) && on.cursor_shown && !on.alternate_screen, "modes are those of a new screen");
    close_screen(&it);
    it = opened(6, 3);
    feed_text(&it, "old");
    expect(open_screen(&it, 10, 2), "one that is open may be opened again");
    shows(&it, "", "and is new");
    expect(!open_screen(&it, 1, 1) && !it.held, "where that fails it is closed");
}

/* Both have the same cells, cursor, style and modes, as they are read one by one. */
static bool reads_equal(ansi_screen *one, ansi_screen *other)
{
    size_t columns, rows, row, column;
    ansi_cell cells[16], others[16];
    ansi_style style, as;
    ansi_modes on, are_on;

    if (!size_of(one, &columns, &rows) || !size_of(other, &row, &column) || row != columns || column != rows)
        return false;
    if (!cursor_of(one, &row, &column) || !at(other, row, column))
        return false;
    for (row = 0; row < rows; row++)
        if (!row_of(one, row, cells, 16) || !row_of(other, row, others, 16) || memcmp(cells, others, columns * sizeof *cells))
            return false;
    return style_of(one, &style) && style_of(other, &as) && !memcmp(&style, &as, sizeof style) && modes_of(one, &on)
           && modes_of(other, &are_on) && !memcmp(&on, &are_on, sizeof on);
}

/* The same, as the library has it; both agree. */
static bool equal(ansi_screen *one, ansi_screen *other)
{
    bool is_so = are_equal(one, other);

    expect(is_so == reads_equal(one, other) && is_so == are_equal(other, one), "screens are equal as they are read");
    return is_so;
}

static size_t drawn(ansi_screen *screen, unsigned char *room)
{
    size_t written = 7, needed = 7;

    memset(room, GUARD, ROOM);
    expect(draw(screen, room, ROOM, &written) && written && are(room + written, ROOM - written, GUARD), "a screen is drawn");
    expect(!draw(screen, room, written - 1, &needed) && needed == written, "a byte less is told of a drawing");
    expect(!draw(screen, room, 0, &needed) && needed == written, "and no room");
    expect(draw(screen, room, written, &needed) && needed == written, "just enough is enough");
    return written;
}

/* Drawings and updates, read by another screen, which then shows the same. */
static void drawings(void)
{
    ansi_screen it = opened(8, 3), other = opened(8, 3), wide = opened(9, 3), none = {0};
    unsigned char room[ROOM];
    size_t written = 7;

    expect(equal(&it, &other), "new screens show the same");
    feed_text(&it, "\033[1;31mred\033[0m \xe4\xb8\xad\r\n\033[?25l\033[4htwo\033[3;3r\033[2;3H");
    expect(!equal(&it, &other) && !equal(&other, &it), "others do not");
    feed_text(&other, "what was here \033[?6h\033]0;begun");
    expect(feed(&other, room, drawn(&it, room)), "a drawing is read");
    expect(equal(&it, &other) && equal(&other, &it), "and shows the same, whatever was begun");
    expect(update(&it, &other, room, ROOM, &written) && written == 0, "then nothing is to be updated");
    feed_text(&it, "\033[32mx\033[?25h");
    expect(!equal(&it, &other), "a character more is another screen");
    memset(room, GUARD, sizeof room);
    expect(update(&other, &it, room, ROOM, &written) && written && are(room + written, ROOM - written, GUARD), "an update is written");
    expect(!update(&other, &it, room, written - 1, &written), "a byte less is told of an update");
    expect(update(&other, &it, room, written, &written) && feed(&other, room, written), "an update is read");
    expect(equal(&it, &other), "and shows the same");
    written = 7;
    expect(!update(&it, &wide, room, ROOM, &written) && written == 0 && !equal(&it, &wide), "screens of two sizes have no update");
    written = 7;
    expect(!update(&it, &none, room, ROOM, &written) && written == 0 && !equal(&it, &none), "nor has none");
    expect(!update(&none, &it, room, ROOM, &written) && !equal(&none, &it) && !draw(&none, room, ROOM, &written), "nor is it drawn");
    shows(&it, "red \xe4\xb8\xad\ntwxo\n", "reading changes nothing");
    close_screen(&it);
    close_screen(&other);
    close_screen(&wide);
}

static bool counts_are(ansi_screen *screen, size_t kept, size_t left)
{
    size_t found_kept = 77, found_left = 77;

    return history_of(screen, &found_kept, &found_left) && found_kept == kept && found_left == left;
}

static void kept_is(ansi_screen *screen, size_t number, const char *wanted)
{
    answer_is(KEPT, screen, number, ROOM, wanted, wanted);
}

static ansi_screen opened_with(size_t columns, size_t rows, size_t history)
{
    ansi_screen it;
    ansi_screen_options options;

    memset(&it, 0, sizeof it);
    memset(&options, 0, sizeof options);
    options.history = history;
    expect(open_with(&it, columns, rows, &options), "a screen opens that keeps rows");
    return it;
}

/* Rows that left: of four columns and two rows, the last three of them. */
static void rows_that_left(void)
{
    ansi_screen it = opened_with(4, 2, 3), other = opened(4, 2), none = {0};
    ansi_screen_options options;
    unsigned char room[8];
    ansi_cell row[6];
    size_t written = 7, left = 8;

    expect(counts_are(&it, 0, 0), "at first none has left");
    feed_text(&it, "a\r\nb\r\nc");
    expect(counts_are(&it, 1, 1), "one has");
    kept_is(&it, 0, "a");
    feed_text(&it, "\r\n\033[1mddddef\033[5;5H\n");
    expect(counts_are(&it, 3, 4), "four have left, of which three are kept");
    kept_is(&it, 0, "b");
    kept_is(&it, 1, "c");
    kept_is(&it, 2, "dddd");
    shows(&it, "ef\n", "the rest shows");
    memset(row, GUARD, sizeof row);
    expect(kept_row(&it, 2, row, 6) && row[0].character == 'd' && row[0].style.bold == 1 && row[3].goes_on == 1 && is_reserved(row, 4), "a row has its cells");
    expect(are((unsigned char *)(row + 4), 2 * sizeof *row, GUARD), "and no more");
    expect(kept_row(&it, 0, row, 4) && row[0].character == 'b' && row[1].character == ' ' && !row[3].goes_on, "and its blanks");
    memset(row, GUARD, sizeof row);
    memset(room, GUARD, sizeof room);
    expect(!kept_row(&it, 2, row, 3) && !kept_row(&it, 3, row, 6) && !kept_row(&it, (size_t)-1, row, 6), "there is no other");
    expect(!kept_text(&it, 3, room, sizeof room, &written) && written == 0, "nor its text");
    expect(are((unsigned char *)row, sizeof row, GUARD) && are(room, sizeof room, GUARD), "and nothing is written");
    feed_text(&it, "\033[?1049h\n\n\n\n\033[?1049l\033[1;1H\033[M");
    expect(counts_are(&it, 3, 4), "none leaves the alternate screen, and none by DL");
    feed_text(&it, "\033[Sx");
    expect(counts_are(&it, 3, 5), "one leaves by SU");
    kept_is(&it, 2, "");
    expect(reset(&it) && counts_are(&it, 0, 0), "a reset forgets them");
    feed_text(&it, "x\r\ny\r\n");
    expect(counts_are(&it, 1, 1), "and more may leave");
    kept_is(&it, 0, "x");
    feed_text(&it, "z\033[2J");
    expect(counts_are(&it, 3, 3), "the rows that ED 2 erases leave first");
    kept_is(&it, 1, "y");
    kept_is(&it, 2, "z");
    feed_text(&other, "a\r\nb\r\nc");
    expect(counts_are(&other, 0, 1), "where none is to be kept they are counted");
    expect(!kept_row(&other, 0, row, 6), "and not kept");
    memset(&options, 0, sizeof options);
    options.history = (size_t)-1;
    expect(!open_with(&other, 4, 2, &options) && !other.held, "there is no memory for so many");
    expect(!open_with(&other, 1, 2, &options) && !other.held, "nor is that a size");
    written = 7;
    expect(!history_of(&none, &written, &left) && written == 7 && left == 8, "no screen has rows that left");
    expect(!kept_row(&none, 0, row, 6) && !kept_text(&none, 0, room, 8, &written) && written == 0, "nor their cells or text");
    close_screen(&it);
}

/* With `drops_erased` those alone that scroll off: not those that ED 2, ED 0 at the first cell, or RIS takes away. */
static void rows_that_scrolled(void)
{
    ansi_screen it = {0}, copied = {0};
    ansi_screen_options options;

    memset(&options, 0, sizeof options);
    options.history = 3;
    options.drops_erased = 1;
    expect(open_with(&it, 4, 2, &options), "a screen opens that keeps what scrolls off");
    feed_text(&it, "a\r\nb\r\nc\033[2J");
    expect(counts_are(&it, 1, 1), "one has scrolled off, and none leaves by ED 2");
    shows(&it, "", "which erases all");
    feed_text(&it, "\033[Hd\r\ne\033[H\033[J");
    expect(counts_are(&it, 1, 1), "nor by ED 0 at the first cell");
    feed_text(&it, "f\r\ng\r\nh");
    expect(copy_of(&copied, &it) && counts_are(&copied, 2, 2), "a copy keeps them");
    feed_text(&it, "\033c");
    expect(counts_are(&it, 2, 2), "nor by RIS");
    shows(&it, "", "which erases all too");
    feed_text(&it, "i\r\nj\r\nk");
    expect(counts_are(&it, 3, 3), "and those that scroll off go on");
    kept_is(&it, 0, "a");
    kept_is(&it, 1, "f");
    kept_is(&it, 2, "i");
    feed_text(&copied, "\033[2J");
    expect(counts_are(&copied, 2, 2), "a copy drops what is erased as well");
    expect(reset(&it), "a reset leaves a new one");
    feed_text(&it, "a\033c\r\n\n");
    expect(counts_are(&it, 1, 1), "which keeps as much");
    close_screen(&copied);
    close_screen(&it);
}

/* (the room that the header tells is enough for any link) */
static void link_is(ansi_screen *screen, uint32_t number, const char *wanted)
{
    answer_is(LINK, screen, number, ANSI_SCREEN_LINK_ROOM, wanted, wanted);
}

/* Links by the numbers that cells have: the last 1,024, and those alone that are shown. The parser stores 1,023 bytes of a command
 * that is whole, 8 among them, and between its 15 parts stand semicolons, 12 of them within the URI. */
static void links(void)
{
    enum { LONGEST = 1034 };
    static char uri[LONGEST + 2];
    ansi_screen it = opened(8, 2), none = {0}, copy = {0};
    ansi_cell cell;
    char text[64];
    unsigned char room[8];
    size_t written = 7;
    int i;

    feed_text(&it, "a\033]8;;https://b/c\033\\b\033]8;;javascript:1\033\\c\033]8;id=1;mailto:d\007d\033]8;;\033\\e");
    expect(cell_of(&it, 0, 1, &cell) && cell.link == 1, "a link has a number");
    link_is(&it, cell.link, "https://b/c");
    expect(cell_of(&it, 0, 2, &cell) && cell.link == 2, "another one has another");
    link_is(&it, cell.link, "");
    link_is(&it, 3, "mailto:d");
    link_is(&it, 0, "");
    link_is(&it, 4, "");
    link_is(&it, 1025, "");
    link_is(&it, UINT32_MAX, "");
    expect(copy_of(&copy, &it), "a screen with links is copied");
    for (i = 4; i <= 1026; i++) {
        snprintf(text, sizeof text, "\033]8;;http://%d\033\\", i);
        feed_text(&it, text);
    }
    link_is(&it, 1, "");
    link_is(&it, 2, "");
    link_is(&it, 3, "mailto:d");
    link_is(&it, 1025, "http://1025");
    link_is(&it, 1026, "http://1026");
    link_is(&copy, 1, "https://b/c");
    link_is(&copy, 1025, "");
    expect(reset(&it), "it is reset");
    link_is(&it, 3, "");
    link_is(&it, 1026, "");
    memset(uri, 'a', LONGEST + 1);
    memcpy(uri, "https://;;;;;;;;;;;;", 20);
    for (i = LONGEST; i <= LONGEST + 1; i++) {
        uri[i] = 0;
        feed_text(&it, "\033]8;;");
        feed_text(&it, uri);
        feed_text(&it, "\033\\");
        link_is(&it, i - LONGEST + 1, i == LONGEST ? uri : "");
        uri[i] = 'a';
    }
    expect(!link_of(&none, 1, room, sizeof room, &written) && written == 0, "no screen has links");
    close_screen(&it);
    close_screen(&copy);
}

static void html_is(ansi_screen *screen, unsigned char styling, const char *wanted)
{
    answer_is(HTML, screen, styling, ROOM, wanted, wanted);
}

/* What shows as HTML: the lines, each in its styles and links. */
static void pages(void)
{
    ansi_screen it = opened(6, 4), none = {0};
    unsigned char room[8];
    size_t written = 7;

    html_is(&it, 0, "");
    feed_text(&it, "a<\r\n\033[1mb\033[m \033[31mc\033[m\r\n123456");
    html_is(&it, 1, "a&lt;\n<span style=\"font-weight:bold;\">b</span> <span style=\"color:#cf222e;\">c</span>\n123456\n");
    feed_text(&it, "78");
    html_is(&it, 3, "a&lt;\n<span class=\"ansi-bold\">b</span> <span class=\"ansi-f1\">c</span>\n12345678\n");
    feed_text(&it, "\033[2J\033[H\033]8;;http://x\033\\l\033]8;;\033\\\033[31mm");
    html_is(&it, 2, "<a rel=\"nofollow noreferrer\" href=\"http://x\" style=\"color:inherit;\">l</a><span style=\"color:#ff7b72;\">m</span>\n");
    html_is(&it, 200, "<a rel=\"nofollow noreferrer\" href=\"http://x\" style=\"color:inherit;\">l</a>"
                      "<span style=\"color:#cf222e;color:light-dark(#cf222e,#ff7b72);\">m</span>\n");
    feed_text(&it, "\033[m\033[?1049h\033[2;2Halt\033[3;3H   \033[41m\033[K");
    html_is(&it, 0, "\n alt\n     \n");
    feed_text(&it, "\033[?1049l\033c\033[3;6Hxy");
    html_is(&it, 0, "\n\n     xy\n");
    expect(reset(&it), "a screen with HTML is reset");
    html_is(&it, 3, "");
    expect(!html_of(&none, 0, room, sizeof room, &written) && written == 0, "no screen has HTML");
    close_screen(&it);
}

/* Streams that differ in one thing each: each from the first, and from no copy of itself. */
static void equality(void)
{
    static const char *const streams[] = {
        "x", "xy", "y", "\033[1mx\033[m", "x\033[1m", "x\033[31m", "x\033[41m", "x\033[4:3m", "x\033[C", "x\n", "x\033[?25l", "x\033[?1049hx",
        "x\033[?7l", "x\033[4h", "\033[?6hx", "\033]8;;http://a\033\\x\033]8;;\033\\", "x\314\201", "x \b", "\344\270\255", "x\r\n12345678 \033[1;2H"};
    enum { COUNT = sizeof streams / sizeof *streams };
    ansi_screen all[COUNT], copy = {0}, none = {0}, small = opened(7, 3), low = opened(8, 2);
    size_t i, j;

    for (i = 0; i < COUNT; i++) {
        all[i] = opened(8, 3);
        feed_text(all + i, streams[i]);
        for (j = 0; j < i; j++)
            expect(!equal(all + i, all + j), streams[i]);
        expect(copy_of(&copy, all + i) && equal(&copy, all + i), "a copy shows the same");
        feed_text(&copy, "\r\nz");
        expect(!equal(&copy, all + i), "until it goes on by itself");
    }
    feed_text(&small, "x");
    feed_text(&low, "x");
    expect(!equal(all, &small) && !equal(all, &low), "sizes differ");
    feed_text(all, "\033[2;3r\0337\033[1;2H\033)0");
    feed_text(&copy, "\033cx");
    expect(equal(all, &copy), "margins, what is saved and character sets are not asked for");
    expect(!are_equal(all, &none) && !are_equal(&none, all), "no screen is as another");
    expect(!copy_of(&copy, &none) && !copy.held, "none has a copy");
    for (i = 0; i < COUNT; i++)
        close_screen(all + i);
    close_screen(&small);
    close_screen(&low);
}

/* A copy stands where the screen stood, with what has left it, and each goes on by itself. */
static void copies(void)
{
    ansi_screen it = opened_with(4, 2, 3), copy = {0};

    feed_text(&it, "a\r\nb\r\nc\r\nd\r\ne\r\nf\033[3");
    expect(copy_of(&copy, &it) && counts_are(&copy, 3, 4), "rows that left are copied");
    kept_is(&copy, 0, "b");
    kept_is(&copy, 2, "d");
    feed_text(&copy, "1mx\r\ny");
    feed_text(&it, ";1mx\r\n\r\n");
    expect(counts_are(&copy, 3, 5) && counts_are(&it, 3, 6), "each goes on by itself");
    kept_is(&copy, 2, "e");
    kept_is(&it, 2, "fx");
    shows(&copy, "fx\ny\n", "also from within a sequence");
    close_screen(&it);
    shows(&copy, "fx\ny\n", "and stays when the other is closed");
    close_screen(&copy);
}

int main(int count, char **words)
{
    long left = count > 1 ? atol(words[1]) : 0;

    for (; left > 0; left--) {
        ansi_screen it = opened_with(2, 1, left % 3);
        close_screen(&it);
    }
    sizes();
    none_is_held();
    rows_of_text();
    outside();
    cells_and_styles();
    changes();
    wraps_and_links();
    modes();
    asks();
    pieces();
    resets();
    rows_that_left();
    rows_that_scrolled();
    drawings();
    equality();
    copies();
    links();
    pages();
    return failures ? 1 : 0;
}
