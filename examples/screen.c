/* Writes what a terminal's screen shows at the end of standard input.
 *
 * Usage: screen [COLUMNS ROWS]
 *
 * A screen has 80 columns and 24 rows where none are given. The status is 0 where all went well, 1 where reading or writing
 * failed, or memory is wanting, and 2 where words are wrong. */
#include "ansi_screen.h"

#include <stdio.h>
#include <stdlib.h>

/* Reads all of the input into the screen, a piece at a time. */
static bool read_all(ansi_screen *screen)
{
    static unsigned char piece[65536];
    size_t count;

    while ((count = fread(piece, 1, sizeof piece, stdin)) > 0)
        ansi_screen_feed(screen, piece, count);
    return !ferror(stdin);
}

/* Writes the text of the screen. */
static bool write_text(ansi_screen *screen)
{
    unsigned char *room;
    size_t length, written;
    bool is_written;

    ansi_screen_text(screen, (unsigned char *)"", 0, &length); /* (how long it is) */
    room = (unsigned char *)malloc(length + 1); /* (C++ wants the cast) */
    if (!room)
        return false;
    ansi_screen_text(screen, room, length, &written);
    is_written = fwrite(room, 1, written, stdout) == written && fflush(stdout) == 0;
    free(room);
    return is_written;
}

int main(int count, char **words)
{
    ansi_screen screen = {0};
    size_t columns = 80, rows = 24;
    bool went_well;

    if (count == 3) {
        columns = strtoul(words[1], NULL, 10);
        rows = strtoul(words[2], NULL, 10);
    }
    if (count == 2 || count > 3 || columns < ANSI_SCREEN_MIN_COLUMNS || columns > ANSI_SCREEN_MAX_COLUMNS
        || rows < ANSI_SCREEN_MIN_ROWS || rows > ANSI_SCREEN_MAX_ROWS) {
        fputs("usage: screen [COLUMNS ROWS]\n", stderr);
        return 2;
    }
    if (!ansi_screen_open(&screen, columns, rows)) {
        fputs("screen: there is no memory\n", stderr);
        return 1;
    }
    went_well = read_all(&screen) && write_text(&screen);
    ansi_screen_close(&screen);
    if (!went_well)
        perror("screen");
    return went_well ? 0 : 1;
}
