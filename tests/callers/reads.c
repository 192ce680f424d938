/* Reads a screen of 120x40 so many times, of which tests/screen_library counts the instructions: WHAT COUNT, where WHAT is `size`,
 * `cell`, `row` or `bare`, a row that has no colours; or `key`, `mouse`, `focus` or `paste`, what a program that asked for all reads
 * of that key and of that place of the mouse which are the longest, and of 100 characters. What is done beside the call is the same
 * for each. */
#include <stdio.h>
#include <stdlib.h>
#include <string.h>

#include "ansi_screen.h"

enum { COLUMNS = 120, ROWS = 40 };

static ansi_cell cells[COLUMNS];
static size_t columns, rows;

static bool read_size(ansi_screen *screen, size_t row, size_t column)
{
    (void)row;
    (void)column;
    return ansi_screen_size(screen, &columns, &rows);
}

static bool read_cell(ansi_screen *screen, size_t row, size_t column)
{
    return ansi_screen_cell(screen, row, column, cells);
}

static bool read_row(ansi_screen *screen, size_t row, size_t column)
{
    (void)column;
    return ansi_screen_row(screen, row, cells, COLUMNS);
}

/* The last row, to which nothing is written. */
static bool read_bare_row(ansi_screen *screen, size_t row, size_t column)
{
    (void)row;
    return read_row(screen, ROWS - 1, column);
}

static unsigned char room[256];
static size_t written;

/* Its number, the one with Shift, modifiers, that it repeats, and what it types, of seven and three digits. */
static bool read_key(ansi_screen *screen, size_t row, size_t column)
{
    static const ansi_key key = {0x10FFFD, 0x10FFFE, 0, ANSI_HELD_SHIFT | ANSI_HELD_CAPS_LOCK | ANSI_HELD_NUM_LOCK, ANSI_EVENT_REPEAT, 0};

    (void)row;
    (void)column;
    return ansi_screen_key(screen, &key, room, sizeof room, &written) && written == 32;
}

static bool read_mouse(ansi_screen *screen, size_t row, size_t column)
{
    static const ansi_mouse mouse = {65535, 65535, 65535, 65535, ANSI_MOUSE_MOVE, 9, ANSI_HELD_SHIFT | ANSI_HELD_ALT | ANSI_HELD_CONTROL, 0};

    (void)row;
    (void)column;
    return ansi_screen_mouse(screen, &mouse, room, sizeof room, &written) && written == 19;
}

static bool read_focus(ansi_screen *screen, size_t row, size_t column)
{
    (void)row;
    return ansi_screen_focus(screen, column & 1, room, sizeof room, &written) && written == 3;
}

static bool read_paste(ansi_screen *screen, size_t row, size_t column)
{
    static const char text[] = "a line of text that is pasted, as others are; then a second one, which has more words than the first\n";

    (void)row;
    (void)column;
    return ansi_screen_paste(screen, (const unsigned char *)text, 100, room, sizeof room, &written) && written == 112;
}

static const struct {
    const char *name;
    bool (*read)(ansi_screen *screen, size_t row, size_t column);
} readers[] = {{"size", read_size}, {"cell", read_cell},   {"row", read_row},     {"bare", read_bare_row},
               {"key", read_key},   {"mouse", read_mouse}, {"focus", read_focus}, {"paste", read_paste}};

/* Rows as a build writes them: words, of which some are coloured. And a program asks for all. */
static bool fill(ansi_screen *screen)
{
    static const char asks[] = "\033[>31u\033[?1003;1004;1006;2004h";
    static const char line[] = "\033[1;32mCompiling\033[0m library v0.1.0 (/work/library) \033[33mwarning\033[0m: unused \033[1mvariable\033[0m "
                               "`x`, of 3 others\r\n";
    int row;

    for (row = 0; row < ROWS - 1; row++)
        if (!ansi_screen_feed(screen, (const unsigned char *)line, sizeof line - 1))
            return false;
    return ansi_screen_feed(screen, (const unsigned char *)asks, sizeof asks - 1);
}

/* Each time the next column of the next row. */
static bool read_often(ansi_screen *screen, bool (*read)(ansi_screen *, size_t, size_t), unsigned long times)
{
    size_t row = 0, column = 0;
    bool is_so = true;

    for (; is_so && times > 0; times--) {
        is_so = read(screen, row, column);
        row = row + 1 < ROWS ? row + 1 : 0;
        column = column + 1 < COLUMNS ? column + 1 : 0;
    }
    return is_so;
}

int main(int count, char **words)
{
    ansi_screen screen = {0};
    bool is_so = count == 3 && ansi_screen_open(&screen, COLUMNS, ROWS) && fill(&screen), is_known = false;
    size_t at;

    for (at = 0; is_so && at < sizeof readers / sizeof *readers; at++)
        if (strcmp(words[1], readers[at].name) == 0) {
            is_known = true;
            is_so = read_often(&screen, readers[at].read, strtoul(words[2], NULL, 10));
        }
    ansi_screen_close(&screen);
    return is_so && is_known ? 0 : 1;
}
