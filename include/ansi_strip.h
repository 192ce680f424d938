/* Strips a stream of its terminal escapes: what is left is the text that it prints, which drives no terminal.
 *
 * Every printed character is left, in UTF-8, and of the controls tab (09), line feed (0A) and
 * carriage return (0D), inside an escape or control sequence too. Such sequences, titles, the targets of links,
 * device control strings with all that is in them and the other controls below 20 leave nothing.
 * DEL (7F) and the characters U+0080 to U+009F, which some terminals take for controls, leave nothing either.
 * A stream is read as a log: a character that is broken leaves U+FFFD, and so does each byte 80 to FF that belongs to
 * no character, outside of sequences and strings; BEL ends a string APC, PM or SOS as it ends a title, and the byte 9C
 * ends no string. So well-formed UTF-8 that has none of these characters, and no control below 20 but those three, is
 * left as it is. What is written is UTF-8, that of each call by itself.
 *
 * A stream comes in pieces of any size, cut anywhere: what is left of it is the same. There is
 * nothing to allocate or to free, no input is refused, and no call fails but for a room of
 * less than ANSI_STRIP_LEAST_ROOM bytes. The library has no data of its own: threads may call
 * it at the same time, each with a state of its own.
 *
 *     ansi_strip state = {0};
 *     unsigned char room[4096];
 *     size_t taken, written;
 *
 *     while (count > 0) {
 *         ansi_strip_feed(&state, bytes, count, room, sizeof room, &taken, &written);
 *         fwrite(room, 1, written, stdout);
 *         bytes += taken;
 *         count -= taken;
 *     }
 *     ansi_strip_end(&state, room, sizeof room, &written);
 *     fwrite(room, 1, written, stdout);
 *
 * What the caller owes to these functions: each pointer is to memory of its own that lives as
 * long as the call; it is not null, also where the size beside it is 0; and no two of the
 * pieces of memory overlap. Nothing is kept of a pointer after the call.
 */
#ifndef ANSI_STRIP_H
#define ANSI_STRIP_H

#include <stdbool.h>
#include <stddef.h>

#ifdef __cplusplus
extern "C" {
#endif

/* The version of this header, and of the library and the programs beside it. */
#define ANSI_STRIP_VERSION "0.1.0"

/* The bytes of room with which ansi_strip_feed always goes on. */
#define ANSI_STRIP_LEAST_ROOM 6

/* The bytes of room that ansi_strip_end needs. */
#define ANSI_STRIP_END_ROOM 3

/* The room in which any `count` bytes are always taken at once: three bytes of text for each, and
 * three more where the first of them breaks a character that an earlier piece began. */
#define ANSI_STRIP_ROOM(count) (3 * (size_t)(count) + 3)

/* Where a stream stands between two pieces: 1,056 bytes, which belong to the caller.
 *
 * One of zero bytes begins a stream (`= {0}` in C, `= {}` in C++), and so does one that
 * ansi_strip_init was given. Any bytes in it are valid. It may be copied, also to another
 * process: the copy goes on as the first does. */
typedef struct ansi_strip {
    size_t length;
    unsigned char pending[1042];
} ansi_strip;

/* Makes the state one that begins a stream, whatever it was. */
void ansi_strip_init(ansi_strip *state);

/* Takes bytes of the stream, and writes what is left of them.
 *
 * piece, count    the bytes that come next, as many as there are
 * room, size      where the text goes; at least ANSI_STRIP_LEAST_ROOM bytes
 * taken           becomes how many bytes were taken, from the front of the piece
 * written         becomes how many bytes of text were written, to the front of the room
 *
 * Answers true where bytes were taken, or where there were none. Then all of their text is
 * written, and what follows `written` bytes of room is as it was. All bytes are taken, unless
 * fewer than ANSI_STRIP_LEAST_ROOM bytes of room were left: then hand on what is written, and
 * call again with the bytes from `taken` on. At least one byte was taken.
 *
 * Answers false where `count` is not 0 and `size` is below ANSI_STRIP_LEAST_ROOM. Then nothing
 * is taken or written, `taken` and `written` become 0, and the state and the room are as
 * they were. */
bool ansi_strip_feed(ansi_strip *state, const unsigned char *piece, size_t count,
                     unsigned char *room, size_t size, size_t *taken, size_t *written);

/* Ends the stream: writes U+FFFD where a character is begun, which can't be whole any more.
 *
 * room, size      where it goes; at least ANSI_STRIP_END_ROOM bytes
 * written         becomes how many bytes that are
 *
 * Answers true where it did. The state then begins a stream. A sequence that is begun and never ended leaves
 * nothing.
 *
 * Answers false where `size` is below ANSI_STRIP_END_ROOM. Then nothing is written, `written` becomes 0,
 * and the state and the room are as they were. */
bool ansi_strip_end(ansi_strip *state, unsigned char *room, size_t size, size_t *written);

/* Lines that end with a line feed alone, as `ansi2text --lf` writes them: a recording by script(1) has a carriage return
 * before each line feed, and these go. ansi_lf_feed takes a text in pieces: what each call of ansi_strip_feed has written,
 * what ansi_strip_end has, and then ansi_lf_end ends it. (Text of ansi_safe.h has none of these carriage returns in any
 * case.) */

/* The bytes of room with which ansi_lf_feed always goes on. */
#define ANSI_LF_LEAST_ROOM 2

/* The bytes of room that ansi_lf_end needs. */
#define ANSI_LF_END_ROOM 1

/* The room in which any `count` bytes of text are always taken at once: their own, and a carriage return that waited. */
#define ANSI_LF_ROOM(count) ((size_t)(count) + 1)

/* Where a text stands between two pieces: 1 byte, which belongs to the caller. 0 begins a text (`= {0}` in C, `= {}` in
 * C++), and so does ansi_lf_init. Any byte is valid, and it may be copied. */
typedef struct ansi_lf {
    unsigned char waits;
} ansi_lf;

/* Makes the state one that begins a text, whatever it was. */
void ansi_lf_init(ansi_lf *state);

/* Takes bytes of the text, and writes them without each carriage return right before a line feed.
 *
 * text, count     the bytes that come next, as many as there are
 * room, size      where they go; at least ANSI_LF_LEAST_ROOM bytes
 * taken           becomes how many bytes were taken, from the front of the text
 * written         becomes how many bytes were written, to the front of the room
 *
 * Answers true where bytes were taken, or where there were none. Then all of them are written that are left, but for a
 * carriage return that comes last, which waits for what comes next; and what follows `written` bytes of room is as it was.
 * At least one byte was taken, and in ANSI_LF_ROOM(count) bytes of room all.
 *
 * Answers false where `count` is not 0 and `size` is below ANSI_LF_LEAST_ROOM. Then nothing is taken or written, `taken`
 * and `written` become 0, and the state and the room are as they were. */
bool ansi_lf_feed(ansi_lf *state, const unsigned char *text, size_t count,
                  unsigned char *room, size_t size, size_t *taken, size_t *written);

/* Ends the text: writes the carriage return that waits, if one does.
 *
 * room, size      where it goes; at least ANSI_LF_END_ROOM bytes
 * written         becomes how many bytes that are
 *
 * Answers true where it did. The state then begins a text.
 *
 * Answers false where `size` is below ANSI_LF_END_ROOM. Then nothing is written, `written` becomes 0, and the state and
 * the room are as they were. */
bool ansi_lf_end(ansi_lf *state, unsigned char *room, size_t size, size_t *written);

#ifdef __cplusplus
}
#endif

#endif
