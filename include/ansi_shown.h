/* What a screen showed of a log: the lines of all that scrolled off at its top, or was erased with all of it, and of what still
 * shows at the end, as text, as text that hides nothing, or as HTML. It is what `ansi2text --shown` and `ansi2html --fragment
 * --shown` write, byte for byte, also with `--no-hidden`, `--lines` and `--urls`; ansi2text(1) and ansi2html(1) say more. With
 * `no_screen` it is what they write without `--shown`: the log itself.
 *
 * A log comes in pieces of any size, cut anywhere: what is written is the same. No input is refused. Memory is taken by
 * ansi_shown_open, ansi_shown_feed and ansi_shown_end (malloc), for the screen and for what is written, which stands there until
 * the end, and, where `lines`, `urls`, `no_hidden` or `no_screen` asks for more, for the log, which is kept until its end; it is
 * given back by ansi_shown_close (free). The library has no data of its own: threads may call it at the same time,
 * each with a log of its own.
 *
 *     ansi_shown shown = {0};
 *     ansi_shown_options options = {0};
 *     unsigned char room[65536];
 *     size_t written;
 *
 *     if (ansi_shown_open(&shown, &options) &&
 *         ansi_shown_feed(&shown, bytes, count) && ansi_shown_end(&shown) &&
 *         ansi_shown_text(&shown, room, sizeof room, &written))
 *         fwrite(room, 1, written, stdout);
 *     ansi_shown_close(&shown);
 *
 * What the caller owes to every function: the log is one of zero bytes, or what a function made of it. Each pointer is to memory of
 * its own that lives as long as the call; it is not null, also where the size beside it is 0; and no two of the pieces of memory
 * overlap. Nothing is kept of a pointer after the call.
 */
#ifndef ANSI_SHOWN_H
#define ANSI_SHOWN_H

#include <stdbool.h>
#include <stddef.h>
#include <stdint.h>

#ifdef __cplusplus
extern "C" {
#endif

/* The version of this header, and of the library and the programs beside it. */
#define ANSI_SHOWN_VERSION "0.1.0"

/* The forms in which a log is written: text, as `ansi2text --shown` writes it; text that hides nothing, as `ansi2text --shown --safe`;
 * and HTML, as `ansi2html --fragment --shown`. Any other number is text. */
#define ANSI_SHOWN_TEXT 0
#define ANSI_SHOWN_SAFE 1
#define ANSI_SHOWN_HTML 2

/* How a log is written, in 24 bytes. Zero bytes are text, by a screen of the recording's size. The last four numbers ask for what they
 * name where they are not 0. */
typedef struct ansi_shown_options {
    /* The size of the screen: 2 to 1,000 columns, and 1 to 1,000 rows. With 0 and 0 it is that which the first line of the log
     * says, as script(1) writes it; and where it says none, 1,000 columns and 100 rows. */
    size_t columns, rows;
    uint8_t form;
    uint8_t styling; /* of HTML: 0 for light and dark pages, 1 for light ones, 2 for dark ones, 3 by classes, as in ansi_html.h */
    uint8_t lines;     /* of HTML: each line in an element with its number, to link to (--lines); ansi2html(1) has the rules */
    uint8_t urls;      /* of HTML: addresses in the text are links too (--urls) */
    uint8_t no_hidden; /* text that SGR 8 hides is left out (--no-hidden) */
    uint8_t no_screen; /* no screen shows the log: it is written as it is (without --shown); then the size says nothing */
    uint8_t reserved[2]; /* 0 */
} ansi_shown_options;

/* A log that is shown, or none, in 8 bytes: zero bytes are none (`= {0}` in C, `= {}` in C++). It may be moved in memory, but is not
 * copied: of two copies of the struct one is used, and closed. */
typedef struct ansi_shown {
    void *held;
} ansi_shown;

/* Begins a log, in place of the one that was held, which is freed. Answers false, and holds none, where no screen can have the size,
 * or memory is wanting. */
bool ansi_shown_open(ansi_shown *shown, const ansi_shown_options *options);

/* Frees the log: then none is held. It may be called again. */
void ansi_shown_close(ansi_shown *shown);

/* Takes the next `count` bytes of the log, which is read as ansi_strip.h says. Answers false where none is held, after the end, and
 * where memory is wanting: then nothing is written, and each call with this log but that which closes it answers false, or writes 0
 * bytes. */
bool ansi_shown_feed(ansi_shown *shown, const unsigned char *piece, size_t count);

/* Ends the log: what is to be written of it is written, and stands there for ansi_shown_text. Answers false where none is held, after
 * the end, and where memory is wanting: then it is as after such a piece. */
bool ansi_shown_end(ansi_shown *shown);

/* Writes what is written to the front of the room, which has `size` bytes, and in `written` how many bytes it has: none before the end.
 * Answers true where it did; what follows in the room is as it was. Answers false where the room has fewer bytes than `written`, and
 * where none is held: then `written` is 0. The room is then as it was. */
bool ansi_shown_text(ansi_shown *shown, unsigned char *room, size_t size, size_t *written);

#ifdef __cplusplus
}
#endif

#endif
