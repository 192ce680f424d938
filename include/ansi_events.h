/* Reads a stream of terminal output as events: its text, its controls, and its control, escape and operating
 * system sequences, each with its parameters.
 *
 * The events are the calls that Paul Williams' parser makes (vt100.net/emu/dec_ansi_parser), as the Rust crate
 * anstyle-parse makes them, but for text: characters that are printed one after another are one event, as far as
 * one call takes them. A character that is broken is U+FFFD.
 *
 * A stream comes in pieces of any size, cut anywhere: its events say the same, with a text cut between two
 * characters where a piece ends. There is nothing to allocate or to free, no input is refused, and no call
 * fails but for fewer events than ANSI_EVENTS_LEAST_EVENTS or a room below ANSI_EVENTS_LEAST_ROOM. The library
 * has no data of its own: threads may call it at the same time, each with a state of its own.
 *
 *     ansi_events state = {0};
 *     static ansi_event events[1024];
 *     static unsigned char room[16384];
 *     size_t taken, written, used, at;
 *
 *     while (count > 0) {
 *         ansi_events_feed(&state, bytes, count, events, 1024, room, sizeof room, &taken, &written, &used);
 *         for (at = 0; at < written; at++)
 *             if (events[at].kind == ANSI_EVENTS_TEXT)
 *                 fwrite(room + events[at].start, 1, events[at].length, stdout);
 *         bytes += taken;
 *         count -= taken;
 *     }
 *
 * The end of the stream needs no call: a sequence or a character that is begun and never ended leaves no event.
 *
 * What the caller owes to each function: each pointer is to memory of its own that lives as
 * long as the call; it is not null, also where the size beside it is 0; and no two of the
 * pieces of memory overlap. Nothing is kept of a pointer after the call.
 */
#ifndef ANSI_EVENTS_H
#define ANSI_EVENTS_H

#include <stdbool.h>
#include <stddef.h>

#ifdef __cplusplus
extern "C" {
#endif

/* The version of this header, and of the library and the programs beside it. */
#define ANSI_EVENTS_VERSION "0.1.0"

/* The events, and the bytes of room, with which ansi_events_feed always goes on: what one byte may lead to. */
#define ANSI_EVENTS_LEAST_EVENTS 2
#define ANSI_EVENTS_LEAST_ROOM 6258

/* The events, and the room, with which any `count` bytes are always taken at once. */
#define ANSI_EVENTS_EVENTS(count) (2 * (size_t)(count))
#define ANSI_EVENTS_ROOM(count) (6 * (size_t)(count) + ANSI_EVENTS_LEAST_ROOM - 6)

/* The kinds of events. */

/* Characters that are printed: in the room, in UTF-8. It is not empty. */
#define ANSI_EVENTS_TEXT 0

/* A control, `byte`: of C0 each but ESC, and outside of sequences 80 to 8F, 91 to 9A and 9C. */
#define ANSI_EVENTS_EXECUTE 1

/* A device control string begins, with a header as that of ANSI_EVENTS_CSI; a byte of it, `byte`; its end. */
#define ANSI_EVENTS_HOOK 2
#define ANSI_EVENTS_PUT 3
#define ANSI_EVENTS_UNHOOK 4

/* An operating system command: in the room its 1 to 16 parts with `;` between them, at most 1,039 bytes in
 * all. No part has a `;`. What came after is dropped: ansi_events_may_be_cut tells where some may have come.
 * `flag` is 1 where BEL ended it. */
#define ANSI_EVENTS_OSC 5

/* A control sequence: in the room its 1 to 32 fields; in `intermediates` its marker (one of < = > ?) and its
 * intermediates; `byte` is the final byte; `flag` is 1 where more came than is shown. */
#define ANSI_EVENTS_CSI 6

/* An escape sequence: `intermediates`, `byte` and `flag` as those of ANSI_EVENTS_CSI. */
#define ANSI_EVENTS_ESC 7

/* A field in the room has three bytes: its value, low byte first, and 1 where the next field belongs to the same
 * group (a `:` stood between them), or 0 where a `;` did or the field is the last. A field with no digit is 0,
 * and a value is 65,535 at most. */
#define ANSI_EVENTS_FIELD 3

/* An event: 24 bytes. What it has in the room stands at `start`, `length` bytes of it, 0 where it has none. What
 * its kind does not speak of is 0. */
typedef struct ansi_event {
    size_t start;
    size_t length;
    unsigned char kind;
    unsigned char byte;
    unsigned char flag;
    unsigned char intermediate_count; /* at most 2; what is after them is 0 */
    unsigned char intermediates[2];
    unsigned char padding[2]; /* each 0 */
} ansi_event;

/* Where a stream stands between two pieces: 1,056 bytes, which belong to the caller.
 *
 * One of zero bytes begins a stream (`= {0}` in C, `= {}` in C++), and so does one that
 * ansi_events_init was given. Any bytes in it are valid. It may be copied, also to another
 * process: the copy goes on as the first does. It is the state of ansi_strip.h, byte for byte. */
typedef struct ansi_events {
    size_t length;
    unsigned char pending[1042];
} ansi_events;

/* Makes the state one that begins a stream, whatever it was. */
void ansi_events_init(ansi_events *state);

/* Takes bytes of the stream, and writes their events.
 *
 * piece, count    the bytes that come next, as many as there are
 * events, most    where the events go; at least ANSI_EVENTS_LEAST_EVENTS
 * room, size      where what they stand for goes; at least ANSI_EVENTS_LEAST_ROOM bytes
 * taken           becomes how many bytes were taken, from the front of the piece
 * written         becomes how many events were written, to the front of `events`
 * used            becomes how many bytes were written, to the front of the room
 *
 * Answers true where bytes were taken, or where there were none. Then all of their events are
 * written, what each stands for lies within `used` bytes, and what follows `written` events and `used` bytes is
 * as it was. All bytes are taken, unless fewer than ANSI_EVENTS_LEAST_EVENTS events or
 * ANSI_EVENTS_LEAST_ROOM bytes of room were left: then read what is written, and call again with the bytes
 * from `taken` on. At least one byte was taken. A room of 16,384 bytes and 1,024 events are few calls; with
 * less the bytes are taken in shorter steps.
 *
 * Answers false where `count` is not 0, and `most` is below ANSI_EVENTS_LEAST_EVENTS or `size` below
 * ANSI_EVENTS_LEAST_ROOM. Then nothing is taken or written, `taken`, `written` and `used` become 0, and the
 * state, the events and the room are as they were. */
bool ansi_events_feed(ansi_events *state, const unsigned char *piece, size_t count, ansi_event *events,
                      size_t most, unsigned char *room, size_t size, size_t *taken, size_t *written,
                      size_t *used);

/* Writes where each event ends: how many of the bytes had come when it was whole.
 *
 * before          a copy of the state, made before ansi_events_feed took the bytes
 * bytes, count    the bytes that it took
 * ends, most      where the ends go, for as many events as it wrote; with fewer places, for the first of them
 *
 * Answers how many ends were written; what follows them is as it was. They stand in the order of the events, none is
 * less than the one before, and none more than `count`. A sequence ends with its final byte, a text with its
 * last character. What is broken off, as a character, or a string by ESC, ends with the byte that breaks it off, and
 * so does an event of that byte, if it has one.
 *
 * The bytes are read once more, one by one: for who needs no ends, events cost what they did. */
size_t ansi_events_ends(const ansi_events *before, const unsigned char *bytes, size_t count, size_t *ends, size_t most);

/* Answers whether a command may have been cut: whether it has 16 parts, or 1,024 bytes in them, which are the most that
 * are kept. Where it answers false, all that came is there. Where it answers true, nothing tells whether more came.
 *
 * event         an event; of a kind that is not ANSI_EVENTS_OSC the answer is false
 * room, size    the bytes that were used of the room, as they were written with it */
bool ansi_events_may_be_cut(const ansi_event *event, const unsigned char *room, size_t size);

#ifdef __cplusplus
}
#endif

#endif
