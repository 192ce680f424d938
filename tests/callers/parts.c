/* Writes what C reads of a screen beside what shows, by the names of the header, as tests/lib/screen_parts.py has it:
 *
 *     parts COLUMNS ROWS STREAM
 *     parts --colors
 *
 * a line for each place, for the margins, for the columns at which tabs stop, and for each hidden row its text and where it is bold; or for
 * each colour. With no word it tries what answers false, and what is written then. */
#include "ansi_screen.h"

#define CALLER "parts.c"
#include "expect.h"

#include <assert.h>
#include <stdio.h>
#include <stdlib.h>
#include <string.h>

static_assert(sizeof(ansi_place) == 48, "a place has 48 bytes");
static_assert(offsetof(ansi_place, column) == 8 && offsetof(ansi_place, style) == 16, "of which numbers are first");
static_assert(offsetof(ansi_place, origin) == 41 && offsetof(ansi_place, uses_g1) == 45, "bytes stand after the style");
static_assert(offsetof(ansi_place, reserved) == 46, "and two are not used");

/* The types: with another one this is a warning, and warnings are errors. */
static bool (*const place_of)(ansi_screen *, unsigned char, ansi_place *) = ansi_screen_place;
static bool (*const margins_of)(ansi_screen *, size_t *, size_t *) = ansi_screen_margins;
static bool (*const stops_of)(ansi_screen *, uint8_t *, size_t) = ansi_screen_stops;
static bool (*const hidden_row)(ansi_screen *, size_t, ansi_cell *, size_t) = ansi_screen_hidden_row;
static void (*const rgb_of)(uint8_t, uint8_t[3]) = ansi_screen_color_rgb;

enum { GUARD = 0xA5, MOST = 1000 };

/* The word, where that is on: 1, and nothing else. */
static void put_word(const char *word, unsigned on)
{
    if (on)
        printf(on == 1 ? " %s" : " %s(%u)", word, on);
}

static void put_place(unsigned which, const ansi_place *place)
{
    printf("place %u %zu %zu", which, place->row, place->column);
    put_word("origin", place->origin);
    put_word("wrap_pending", place->wrap_pending);
    put_word("g0_draws", place->g0_draws);
    put_word("g1_draws", place->g1_draws);
    put_word("uses_g1", place->uses_g1);
    put_word("bold", place->style.bold);
    put_word("italic", place->style.italic);
    if (place->style.foreground.kind == ANSI_COLOR_NAMED)
        printf(" foreground=%u", place->style.foreground.values[0]);
    expect(!place->reserved[0] && !place->reserved[1] && are(place->style.reserved, 8, 0), "what is reserved is 0");
    putchar('\n');
}

static void put_stops(ansi_screen *screen, size_t columns)
{
    uint8_t stops[MOST + 1];
    size_t column;

    memset(stops, GUARD, sizeof stops);
    expect(stops_of(screen, stops, MOST + 1) && are(stops + columns, MOST + 1 - columns, GUARD), "past the stops the room is as it was");
    printf("stops");
    for (column = 0; column < columns; column++) {
        expect(stops[column] < 2, "a stop is 1 or 0");
        if (stops[column])
            printf(" %zu", column);
    }
    putchar('\n');
}

static void put_hidden(ansi_screen *screen, size_t row, size_t columns)
{
    static ansi_cell cells[MOST + 1];
    size_t column;

    memset(cells, GUARD, sizeof cells);
    if (!hidden_row(screen, row, cells, columns + 1)) {
        expect(are((unsigned char *)cells, sizeof cells, GUARD), "nothing is written of a row that is not hidden");
        return;
    }
    expect(are((unsigned char *)(cells + columns), sizeof *cells, GUARD), "past the cells the room is as it was");
    printf("hidden %zu ", row);
    for (column = 0; column < columns; column++)
        printf(cells[column].style.bold ? "*%c" : "%c", are(cells[column].reserved, 8, 0) ? (char)cells[column].character : '?');
    putchar('\n');
}

static void put_parts(ansi_screen *screen)
{
    size_t columns = 0, rows = 0, top = 0, bottom = 0, row;
    ansi_place place;
    unsigned which;

    expect(ansi_screen_size(screen, &columns, &rows) && margins_of(screen, &top, &bottom), "it has a size and margins");
    for (which = 0; which < 256; which++) {
        memset(&place, GUARD, sizeof place);
        if (place_of(screen, (unsigned char)which, &place))
            put_place(which, &place);
        else
            expect(are((unsigned char *)&place, sizeof place, GUARD), "nothing is written of a place that is none");
    }
    printf("margins %zu %zu\n", top, bottom);
    put_stops(screen, columns);
    for (row = 0; row <= rows; row++)
        put_hidden(screen, row, columns);
}

static void put_colors(void)
{
    unsigned number;
    uint8_t rgb[4] = {GUARD, GUARD, GUARD, GUARD};

    for (number = 0; number < 256; number++) {
        rgb_of((uint8_t)number, rgb);
        printf("color %u %02x%02x%02x\n", number, rgb[0], rgb[1], rgb[2]);
    }
    expect(rgb[3] == GUARD, "a colour has three bytes");
}

static void no_parts(void)
{
    ansi_screen none = {0}, it = {0};
    ansi_place place;
    ansi_cell cells[8];
    uint8_t stops[8];
    size_t top = 7, bottom = 8;

    memset(&place, GUARD, sizeof place);
    memset(cells, GUARD, sizeof cells);
    memset(stops, GUARD, sizeof stops);
    expect(!place_of(&none, ANSI_PLACE_CURSOR, &place) && !place_of(&none, ANSI_PLACE_SAVED, &place), "no screen has places");
    expect(!margins_of(&none, &top, &bottom) && top == 7 && bottom == 8, "nor margins");
    expect(!stops_of(&none, stops, 8) && !hidden_row(&none, 0, cells, 8) && !none.held, "nor stops, nor hidden rows");
    expect(ansi_screen_open(&it, 8, 2), "a screen opens");
    expect(!hidden_row(&it, 0, cells, 8) && !place_of(&it, ANSI_PLACE_HIDDEN, &place), "nothing is hidden at first");
    expect(ansi_screen_feed(&it, (const unsigned char *)"\033[?1049h", 8), "the alternate screen shows");
    expect(!stops_of(&it, stops, 7) && !stops_of(&it, stops, 0), "stops want a byte for each column");
    expect(!hidden_row(&it, 0, cells, 7) && !hidden_row(&it, 2, cells, 8) && !hidden_row(&it, (size_t)-1, cells, 8), "a row its room");
    expect(!place_of(&it, 3, &place) && !place_of(&it, 255, &place), "there is no fourth place");
    expect(are((unsigned char *)&place, sizeof place, GUARD) && are(stops, sizeof stops, GUARD), "nothing is written");
    expect(are((unsigned char *)cells, sizeof cells, GUARD), "of cells too");
    expect(stops_of(&it, stops, 8) && stops[0] == 1 && stops[1] == 0 && hidden_row(&it, 1, cells, 8), "just enough is enough");
    expect(place_of(&it, ANSI_PLACE_HIDDEN, &place) && !place.row && !place.column, "where the cursor was is told");
    ansi_screen_close(&it);
}

int main(int count, char **words)
{
    ansi_screen screen = {0};

    if (count < 2)
        no_parts();
    else if (count < 4)
        put_colors();
    else {
        expect(ansi_screen_open(&screen, strtoul(words[1], NULL, 10), strtoul(words[2], NULL, 10)), "a screen opens");
        expect(ansi_screen_feed(&screen, (const unsigned char *)words[3], strlen(words[3])), "it takes a stream");
        put_parts(&screen);
        ansi_screen_close(&screen);
    }
    return failures ? 1 : 0;
}
