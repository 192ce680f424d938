/* Writes a stream of terminal output as HTML: its text, escaped, in the colours, attributes and links
 * that its escapes select.
 *
 * The text is that of ansi_strip.h, here with DEL (7F) and U+0080 to U+009F as characters: each printed character
 * in UTF-8, tab, line feed and carriage return. Bytes that belong to no character, and BEL, are read as there.
 * The bytes & < > " ' and a carriage return are written as character references. Text that is not plain
 * stands in <span style="..">, and what has a link (OSC 8) to https://, http:// or mailto: in
 * <a rel="nofollow noreferrer" href=".." style="..">, which is opened where the link begins and closed where it
 * ends; with ANSI_HTML_CLASSES the attribute is class. A link that is shown is all that its command says. The HTML is
 * at most 74 times as long as the stream, by classes 35 times, and 11 bytes. Before what is printed after a carriage
 * return stands <br>, unless it is a line feed. No markup comes in from the stream.
 *
 * The HTML is a fragment for a <pre> of a page in UTF-8, right after a newline there. For classes the page
 * has the rules that `ansi2html --stylesheet` writes.
 *
 * A stream comes in pieces of any size, cut anywhere: its HTML, and what ends it, is the same. There is
 * nothing to allocate or to free, no input is refused, and no call fails but for a room that is too small.
 * A call takes about 26 KiB of the stack. The library has no data of its own: threads may call it at the
 * same time, each with a state of its own.
 *
 *     ansi_html state = {0};
 *     unsigned char room[16384];
 *     size_t taken, written;
 *
 *     while (count > 0) {
 *         ansi_html_feed(&state, bytes, count, room, sizeof room, &taken, &written);
 *         fwrite(room, 1, written, stdout);
 *         bytes += taken;
 *         count -= taken;
 *     }
 *     ansi_html_end(&state, room, sizeof room, &written);
 *     fwrite(room, 1, written, stdout);
 *
 * What the caller owes to these functions: each pointer is to memory of its own that lives as
 * long as the call; it is not null, also where the size beside it is 0; and no two of the
 * pieces of memory overlap. Nothing is kept of a pointer after the call.
 */
#ifndef ANSI_HTML_H
#define ANSI_HTML_H

#include <stdbool.h>
#include <stddef.h>

#ifdef __cplusplus
extern "C" {
#endif

/* The version of this header, and of the library and the programs beside it. */
#define ANSI_HTML_VERSION "0.1.0"

/* The bytes of room with which ansi_html_feed always goes on: what one byte may lead to, where it opens
 * a link of 1,035 bytes. */
#define ANSI_HTML_LEAST_ROOM 6534

/* The bytes of room that ansi_html_end needs: for U+FFFD, where it opens a link, and for what closes that. */
#define ANSI_HTML_END_ROOM 6539

/* How styles are written: colours for light and dark pages, as the reader has it (a dark page has a
 * color-scheme); for light ones; for dark ones; or by classes. Any other number is for both. */
#define ANSI_HTML_BOTH 0
#define ANSI_HTML_LIGHT 1
#define ANSI_HTML_DARK 2
#define ANSI_HTML_CLASSES 3

/* Where a stream and its HTML stand between two pieces: 3,192 bytes, which belong to the caller.
 *
 * One of zero bytes begins a stream (`= {0}` in C, `= {}` in C++), for light and dark pages, and so does one
 * that ansi_html_init was given. Any bytes in it are valid. It may be copied, also to another
 * process: the copy goes on as the first does. */
typedef struct ansi_html {
    size_t length;
    unsigned char others[3184];
} ansi_html;

/* Makes the state one that begins a stream, whatever it was, in one of the stylings above. */
void ansi_html_init(ansi_html *state, unsigned char styling);

/* Takes bytes of the stream, and writes their HTML.
 *
 * piece, count    the bytes that come next, as many as there are
 * room, size      where the HTML goes; at least ANSI_HTML_LEAST_ROOM bytes
 * taken           becomes how many bytes were taken, from the front of the piece
 * written         becomes how many bytes of HTML were written, to the front of the room
 *
 * Answers true where bytes were taken, or where there were none. Then all of their HTML is
 * written, which is UTF-8 by itself, and what follows `written` bytes of room is as it was. At least one
 * byte was taken, and at most 4,096: as many as find room, or nearly so; of a room no more than 16,384
 * bytes are used. What a call costs is in proportion to the bytes that it takes and writes. Hand on what is
 * written, and call again with the bytes from `taken` on.
 *
 * Answers false where `count` is not 0 and `size` is below ANSI_HTML_LEAST_ROOM. Then nothing
 * is taken or written, `taken` and `written` become 0, and the state and the room are as
 * they were. */
bool ansi_html_feed(ansi_html *state, const unsigned char *piece, size_t count,
                    unsigned char *room, size_t size, size_t *taken, size_t *written);

/* Ends the stream: writes U+FFFD where a character is begun, and what closes the element that is open, if one is.
 *
 * room, size      where it goes; at least ANSI_HTML_END_ROOM bytes
 * written         becomes how many bytes that are
 *
 * Answers true where it did. The state then begins a stream, in the same styling. A sequence that is begun and
 * never ended leaves nothing.
 *
 * Answers false where `size` is below ANSI_HTML_END_ROOM. Then nothing is written, `written` becomes 0,
 * and the state and the room are as they were. */
bool ansi_html_end(ansi_html *state, unsigned char *room, size_t size, size_t *written);

#ifdef __cplusplus
}
#endif

#endif
