/* Writes what C reads of a screen, by the names of the header, as tests/lib/screen_cells.py has it:
 *
 *     cells COLUMNS ROWS STREAM [OTHER]
 *     cells COLUMNS ROWS --changes STREAM ..
 *
 * a line for its size, its modes, its cursor, the style of what comes next, each cell and each link of a cell; and with another stream
 * whether the screen of that shows the same. Or what can have changed by each stream, a line for each row of which some has. */
#include "ansi_screen.h"

#include <stdio.h>
#include <stdlib.h>
#include <string.h>

static void must(bool holds, const char *what)
{
    if (!holds) {
        fprintf(stderr, "cells.c: it does not hold that %s\n", what);
        exit(1);
    }
}

static void put_color(const char *name, ansi_color color)
{
    const uint8_t *values = color.values;

    switch (color.kind) {
    case ANSI_COLOR_DEFAULT: break;
    case ANSI_COLOR_NAMED: printf(" %s=named:%u", name, values[0]); break;
    case ANSI_COLOR_BRIGHT: printf(" %s=bright:%u", name, values[0]); break;
    case ANSI_COLOR_INDEXED: printf(" %s=indexed:%u", name, values[0]); break;
    case ANSI_COLOR_DIRECT: printf(" %s=direct:%u,%u,%u", name, values[0], values[1], values[2]); break;
    default: printf(" %s=%u", name, color.kind);
    }
}

static void put_underline(unsigned kind)
{
    switch (kind) {
    case ANSI_UNDERLINE_OFF: break;
    case ANSI_UNDERLINE_SINGLE: printf(" underline=single"); break;
    case ANSI_UNDERLINE_DOUBLE: printf(" underline=double"); break;
    case ANSI_UNDERLINE_CURLY: printf(" underline=curly"); break;
    case ANSI_UNDERLINE_DOTTED: printf(" underline=dotted"); break;
    case ANSI_UNDERLINE_DASHED: printf(" underline=dashed"); break;
    default: printf(" underline=%u", kind);
    }
}

/* The word, where that is on: 1, and nothing else. */
static void put_word(const char *word, unsigned on)
{
    if (on)
        printf(on == 1 ? " %s" : " %s(%u)", word, on);
}

static void put_style(ansi_style style)
{
    put_color("foreground", style.foreground);
    put_color("background", style.background);
    put_underline(style.underline);
    put_word("bold", style.bold);
    put_word("dim", style.dim);
    put_word("italic", style.italic);
    put_word("blink", style.blink);
    put_word("reverse", style.reverse);
    put_word("hidden", style.hidden);
    put_word("struck_out", style.struck_out);
    put_word("overlined", style.overlined);
    putchar('\n');
}

static const char *part_of(unsigned part)
{
    switch (part) {
    case ANSI_PART_EMPTY: return "empty";
    case ANSI_PART_WHOLE: return "whole";
    case ANSI_PART_LEFT: return "left";
    case ANSI_PART_RIGHT: return "right";
    }
    return "another";
}

static void put_cell(size_t row, size_t column, const ansi_cell *cell)
{
    unsigned mark;

    printf("cell %zu %zu %x", row, column, (unsigned)cell->character);
    for (mark = 0; mark < cell->mark_count; mark++)
        printf(" %x", (unsigned)cell->marks[mark]);
    printf("|%s|%u|%u|", part_of(cell->part), (unsigned)cell->link, cell->goes_on);
    put_style(cell->style);
}

static void put_link(ansi_screen *screen, unsigned number)
{
    unsigned char room[ANSI_SCREEN_LINK_ROOM];
    size_t written;

    must(ansi_screen_link(screen, number, room, sizeof room, &written), "a link is told");
    printf("link %u %.*s\n", number, (int)written, (const char *)room);
}

static void put_cells(ansi_screen *screen, size_t columns, size_t rows)
{
    static ansi_cell cells[ANSI_SCREEN_MAX_COLUMNS], cell;
    size_t row, column;

    for (row = 0; row < rows; row++) {
        must(ansi_screen_row(screen, row, cells, columns), "a row is there");
        for (column = 0; column < columns; column++) {
            must(ansi_screen_cell(screen, row, column, &cell), "a cell is there");
            must(!memcmp(&cell, cells + column, sizeof cell), "a cell is that of its row");
            put_cell(row, column, &cell);
            if (cell.link)
                put_link(screen, cell.link);
        }
    }
}

static void put_screen(ansi_screen *screen)
{
    size_t columns, rows, row, column;
    ansi_modes modes;
    ansi_style style;

    must(ansi_screen_size(screen, &columns, &rows), "it has a size");
    must(ansi_screen_modes(screen, &modes), "it has modes");
    must(ansi_screen_cursor(screen, &row, &column), "it has a cursor");
    must(ansi_screen_style(screen, &style), "it has a style");
    printf("size %zu %zu\nmodes", columns, rows);
    put_word("cursor_shown", modes.cursor_shown);
    put_word("alternate_screen", modes.alternate_screen);
    put_word("autowrap", modes.autowrap);
    put_word("insert", modes.insert);
    put_word("origin", modes.origin);
    printf("\ncursor %zu %zu\nstyle", row, column);
    put_style(style);
    put_cells(screen, columns, rows);
}

static ansi_screen shown(char **words, const char *stream)
{
    ansi_screen screen = {0};

    must(ansi_screen_open(&screen, strtoul(words[1], NULL, 10), strtoul(words[2], NULL, 10)), "a screen opens");
    must(ansi_screen_feed(&screen, (const unsigned char *)stream, strlen(stream)), "it takes a stream");
    return screen;
}

static void put_changes(char **words)
{
    ansi_screen screen = shown(words, "");
    size_t columns, rows, row, first, past;

    must(ansi_screen_size(&screen, &columns, &rows), "it has a size");
    for (words += 4; *words; words++) {
        must(ansi_screen_feed(&screen, (const unsigned char *)*words, strlen(*words)), "it takes a stream");
        for (row = 0; row < rows; row++) {
            must(ansi_screen_changed(&screen, row, &first, &past), "what can have changed of a row is told");
            if (first != past)
                printf("change %zu %zu %zu\n", row, first, past);
        }
        must(ansi_screen_forget(&screen), "it forgets");
        puts("forgotten");
    }
    ansi_screen_close(&screen);
}

int main(int count, char **words)
{
    ansi_screen screen, other;

    if (count < 4)
        return 2;
    if (!strcmp(words[3], "--changes")) {
        put_changes(words);
        return 0;
    }
    screen = shown(words, words[3]);
    put_screen(&screen);
    if (count > 4) {
        other = shown(words, words[4]);
        puts(ansi_screen_equal(&screen, &other) ? "equal" : "unequal");
        ansi_screen_close(&other);
    }
    ansi_screen_close(&screen);
    return 0;
}
