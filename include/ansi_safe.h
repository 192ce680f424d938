/* Writes a stream of terminal output as text that hides nothing: for a reviewer, an issue, a chat or a language model.
 *
 * Escape and control sequences, titles, the targets of links and device control strings leave nothing, as with
 * ansi_strip.h. A character that shows or is blank is left, and so is a joiner, such as U+200D, where an emoji or a
 * script needs it. LF, VT and FF are a line feed, and a carriage return before a line feed goes. Each other character
 * is written visibly, as <U+202E>: controls, what turns the order of text round, and what shows nothing. So is the < of
 * a <U+ that stands in the stream, as <U+003C>. So the text says which characters there were. Text that the stream
 * hides (SGR 8), or that has the colour of its ground in xterm's palette, stands between <U+hidden> and <U+shown>, in
 * each line by itself. Bytes that belong to no character, and BEL, are read as ansi_strip.h says. It is what `ansi2text --safe` writes; ansi2text(1) says more.
 *
 * A stream comes in pieces of any size, cut anywhere: its text, and what ends it, is the same. There is
 * nothing to allocate or to free, no input is refused, and no call fails but for a room that is too small.
 * A call takes about 19 KiB of the stack. The library has no data of its own: threads may call it at the
 * same time, each with a state of its own.
 *
 *     ansi_safe state = {0};
 *     unsigned char room[16384];
 *     size_t taken, written;
 *
 *     while (count > 0) {
 *         ansi_safe_feed(&state, bytes, count, room, sizeof room, &taken, &written);
 *         fwrite(room, 1, written, stdout);
 *         bytes += taken;
 *         count -= taken;
 *     }
 *     ansi_safe_end(&state, room, sizeof room, &written);
 *     fwrite(room, 1, written, stdout);
 *
 * What the caller owes to these functions: each pointer is to memory of its own that lives as
 * long as the call; it is not null, also where the size beside it is 0; and no two of the
 * pieces of memory overlap. Nothing is kept of a pointer after the call.
 */
#ifndef ANSI_SAFE_H
#define ANSI_SAFE_H

#include <stdbool.h>
#include <stddef.h>

#ifdef __cplusplus
extern "C" {
#endif

/* The version of this header, and of the library and the programs beside it. */
#define ANSI_SAFE_VERSION "0.1.0"

/* The bytes of room with which ansi_safe_feed always goes on. */
#define ANSI_SAFE_LEAST_ROOM 60

/* The bytes of room that ansi_safe_end needs. */
#define ANSI_SAFE_END_ROOM 50

/* The room in which any `count` bytes are always taken at once: of each byte two characters and a mark before each, of ten
 * bytes at most, and two characters that waited. (The text of a whole stream is at most twenty times as long as what is
 * read of it, and ten bytes more; mostly it is as long.) */
#define ANSI_SAFE_ROOM(count) (40 * (size_t)(count) + 40)

/* Where a stream and its text stand between two pieces: 1,080 bytes, which belong to the caller.
 *
 * One of zero bytes begins a stream (`= {0}` in C, `= {}` in C++), and so does one that
 * ansi_safe_init was given. Any bytes in it are valid. It may be copied, also to another
 * process: the copy goes on as the first does. */
typedef struct ansi_safe {
    size_t length;
    unsigned char others[1072];
} ansi_safe;

/* Makes the state one that begins a stream, whatever it was. */
void ansi_safe_init(ansi_safe *state);

/* Takes bytes of the stream, and writes their text.
 *
 * piece, count    the bytes that come next, as many as there are
 * room, size      where the text goes; at least ANSI_SAFE_LEAST_ROOM bytes
 * taken           becomes how many bytes were taken, from the front of the piece
 * written         becomes how many bytes of text were written, to the front of the room
 *
 * Answers true where bytes were taken, or where there were none. Then all of their text is written but for
 * what waits for what comes next: a carriage return, <, <U or a joiner, and the mark that ends hidden text. The text is
 * UTF-8 by itself, and what follows `written` bytes of room is as it was. At least one byte was taken, and in
 * ANSI_SAFE_ROOM(count) bytes of room all. Hand on what is written, and call again with the bytes from `taken` on.
 *
 * Answers false where `count` is not 0 and `size` is below ANSI_SAFE_LEAST_ROOM. Then nothing
 * is taken or written, `taken` and `written` become 0, and the state and the room are as
 * they were. */
bool ansi_safe_feed(ansi_safe *state, const unsigned char *piece, size_t count,
                    unsigned char *room, size_t size, size_t *taken, size_t *written);

/* Ends the stream: writes what still waits, U+FFFD where a character is begun, and <U+shown> after hidden text.
 *
 * room, size      where it goes; at least ANSI_SAFE_END_ROOM bytes
 * written         becomes how many bytes that are
 *
 * Answers true where it did. The state then begins a stream. A sequence that is begun and never ended leaves
 * nothing.
 *
 * Answers false where `size` is below ANSI_SAFE_END_ROOM. Then nothing is written, `written` becomes 0,
 * and the state and the room are as they were. */
bool ansi_safe_end(ansi_safe *state, unsigned char *room, size_t size, size_t *written);

#ifdef __cplusplus
}
#endif

#endif
