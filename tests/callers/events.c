/* What include/ansi_events.h declares, and what a caller rests on: sizes, numbers, types, false answers, any
 * bytes in a state. tests/library compiles it as C and as C++, and with the sanitizers. Says what is wrong on
 * standard error and ends with status 1.
 *
 * Usage: events                       tries that
 *        events PIECE EVENTS ROOM     writes standard input's events as parselog writes its calls, in pieces of
 *                                     so many bytes, with so many events and so much room
 *        events quiet PIECE EVENTS ROOM   writes how many events there are, alone */
#include "ansi_events.h"
#include "ansi_events.h" /* (a second time: it guards itself) */
#include "ansi_html.h"   /* (and these stand beside it) */
#include "ansi_strip.h"

#define CALLER "events.c"
#include "expect.h"

#include <assert.h>
#include <stdio.h>
#include <stdlib.h>
#include <string.h>

static_assert(sizeof(ansi_events) == 1056, "a state has 1,056 bytes");
static_assert(offsetof(ansi_events, pending) == 8, "pending stands after length");
static_assert(sizeof(struct ansi_events) == sizeof(ansi_strip), "the state is that of the stripper");
static_assert(sizeof(ansi_event) == 24, "an event has 24 bytes");
static_assert(sizeof(((struct ansi_event *)0)->intermediates) == 2, "two intermediates are shown");
static_assert(offsetof(ansi_event, length) == 8 && offsetof(ansi_event, kind) == 16, "fields stand in order");
static_assert(offsetof(ansi_event, byte) == 17 && offsetof(ansi_event, flag) == 18, "and so do these");
static_assert(offsetof(ansi_event, intermediate_count) == 19, "and so does the count");
static_assert(offsetof(ansi_event, intermediates) == 20, "and so do the intermediates");
static_assert(offsetof(ansi_event, padding) == 22, "and so does what fills an event");
static_assert(ANSI_EVENTS_LEAST_EVENTS == 2 && ANSI_EVENTS_LEAST_ROOM == 6258, "what one byte may need");
static_assert(ANSI_EVENTS_EVENTS(1) == ANSI_EVENTS_LEAST_EVENTS, "so many for one");
static_assert(ANSI_EVENTS_ROOM(1) == ANSI_EVENTS_LEAST_ROOM, "so much for one");
static_assert(ANSI_EVENTS_EVENTS(1 + 1) == 4 && ANSI_EVENTS_ROOM(1 ? 2 : 3) == 6264, "the count stands in brackets");
static_assert(7 % ANSI_EVENTS_EVENTS(1) == 1 && 7 % ANSI_EVENTS_EVENTS(2) == 3, "and so does the whole");
static_assert(9999 % ANSI_EVENTS_ROOM(1) == 3741, "and so does the room's");
static_assert(sizeof(ANSI_EVENTS_EVENTS(1)) == sizeof(size_t), "it is a size");
static_assert(sizeof(ANSI_EVENTS_ROOM(1)) == sizeof(size_t), "and so is the room");
static_assert(ANSI_EVENTS_EVENTS(0xC0000000) == 0x180000000, "also of a large count");
static_assert(ANSI_EVENTS_ROOM(0x40000000) == 0x18000186C, "also of a large count");

/* The types: with another one this is a warning, and warnings are errors. */
static void (*const init)(ansi_events *) = ansi_events_init;
static bool (*const feed)(ansi_events *, const unsigned char *, size_t, ansi_event *, size_t, unsigned char *,
                          size_t, size_t *, size_t *, size_t *) = ansi_events_feed;
static size_t (*const find_ends)(const ansi_events *, const unsigned char *, size_t, size_t *, size_t) = ansi_events_ends;
static bool (*const may_be_cut)(const ansi_event *, const unsigned char *, size_t) = ansi_events_may_be_cut;

enum { AFTER = 64, MOST = 4096, SIZE = 65536, LONGEST = 1 << 20 };

static ansi_event events[MOST + 1];
static unsigned char room[SIZE + AFTER], bytes[LONGEST];
static size_t taken, written, used;

/* ------------------------------------------------------------------ what a caller rests on */

/* A state, and bytes after it that no call may touch. */
struct guarded {
    ansi_events state;
    unsigned char after[AFTER];
};

static struct guarded it;

static bool goes_on(const char *text, size_t most, size_t size)
{
    memset(events, 0x7E, sizeof events);
    memset(room, 0x7E, sizeof room);
    taken = written = used = 7;
    return feed(&it.state, (const unsigned char *)text, strlen(text), events, most, room, size, &taken, &written, &used);
}

static bool is(const ansi_event *event, int kind, int byte, int flag, size_t length)
{
    return event->kind == kind && event->byte == byte && event->flag == flag && event->length == length
           && event->start + event->length <= used;
}

/* What its kind does not speak of is 0, a flag is 0 or 1; so are the bytes behind its fields, which the package in
 * Python reads with them. */
static bool is_bare(const ansi_event *event)
{
    int kind = event->kind;
    bool has_header = kind == ANSI_EVENTS_HOOK || kind == ANSI_EVENTS_CSI || kind == ANSI_EVENTS_ESC;
    bool has_byte = has_header || kind == ANSI_EVENTS_EXECUTE || kind == ANSI_EVENTS_PUT;
    bool has_flag = has_header || kind == ANSI_EVENTS_OSC;
    bool has_fields = kind == ANSI_EVENTS_HOOK || kind == ANSI_EVENTS_CSI;
    bool has_bytes = has_fields || kind == ANSI_EVENTS_TEXT || kind == ANSI_EVENTS_OSC;
    size_t count = has_header ? event->intermediate_count : 0, at = offsetof(ansi_event, intermediates) + count;

    return (has_byte || event->byte == 0) && event->flag <= (has_flag ? 1 : 0) && (has_bytes || event->length == 0)
           && event->intermediate_count == count && are((const unsigned char *)event + at, sizeof *event - at, 0);
}

static void events_have_their_fields(void)
{
    memset(&it, 0xA5, sizeof it);
    init(&it.state);
    expect(goes_on("ab\007\033[?4:3;256mc\033]2;t;u\007\033(B", MOST, SIZE), "there is room");
    expect(taken == 26 && written == 6 && used == 17, "all is taken, in six events");
    expect(is(&events[0], ANSI_EVENTS_TEXT, 0, 0, 2) && memcmp(room + events[0].start, "ab", 2) == 0, "a text comes first");
    expect(is(&events[1], ANSI_EVENTS_EXECUTE, 7, 0, 0), "BEL is executed");
    expect(is(&events[2], ANSI_EVENTS_CSI, 'm', 0, 9), "a control sequence has three fields");
    expect(memcmp(room + events[2].start, "\4\0\1\3\0\0\0\1\0", 9) == 0, "of which two are one group");
    expect(events[2].intermediate_count == 1 && memcmp(events[2].intermediates, "?", 2) == 0, "and a marker");
    expect(is(&events[3], ANSI_EVENTS_TEXT, 0, 0, 1), "and a text follows");
    expect(is(&events[4], ANSI_EVENTS_OSC, 0, 1, 5) && memcmp(room + events[4].start, "2;t;u", 5) == 0, "a command has parts");
    expect(is(&events[5], ANSI_EVENTS_ESC, 'B', 0, 0) && events[5].intermediates[0] == '(', "an escape sequence ends it");
    expect(are((unsigned char *)&events[6], sizeof events[6], 0x7E), "what follows the events is as it was");
    expect(are(room + used, AFTER, 0x7E), "what follows the bytes is as it was");
    expect(are(it.after, AFTER, 0xA5), "what follows the state is as it was");
}

/* Characters that are printed one after another are one event, whatever the parser hands on at once. */
static void a_run_is_one_event(void)
{
    memset(&it, 0, sizeof it);
    expect(goes_on("a\303\251\303b\342\202\254\355\240\200c\nd", MOST, SIZE) && written == 5, "runs, and what stands between them");
    expect(is(&events[0], ANSI_EVENTS_TEXT, 0, 0, 13) && memcmp(room, "a\303\251\357\277\275b\342\202\254\357\277\275", 13) == 0, "a broken character is in the run");
    expect(is(&events[1], ANSI_EVENTS_EXECUTE, 0x80, 0, 0), "which a control ends");
    expect(is(&events[2], ANSI_EVENTS_TEXT, 0, 0, 1) && is(&events[4], ANSI_EVENTS_TEXT, 0, 0, 1), "and others follow");
    expect(events[3].start == events[2].start + 1 && events[4].start == used - 1, "each stands right behind the one before");
}

static void little_is_refused(void)
{
    ansi_events before;

    memset(&it, 0, sizeof it);
    goes_on("\033[3", MOST, SIZE);
    expect(taken == 3 && written == 0 && used == 0, "what is begun has no event");
    before = it.state;
    expect(!goes_on("1m", ANSI_EVENTS_LEAST_EVENTS - 1, SIZE), "one event is refused");
    expect(taken == 0 && written == 0 && used == 0, "nothing is taken or written");
    expect(!goes_on("1m", MOST, ANSI_EVENTS_LEAST_ROOM - 1), "little room is refused");
    expect(taken == 0 && written == 0 && used == 0, "nothing is taken or written");
    expect(memcmp(&it.state, &before, sizeof before) == 0, "the state is as it was");
    expect(are(room, sizeof room, 0x7E) && are((unsigned char *)events, sizeof events, 0x7E), "so is all else");
    expect(goes_on("", 0, 0) && taken == 0 && written == 0 && used == 0, "no bytes need no room");
    expect(goes_on("1m", ANSI_EVENTS_LEAST_EVENTS, ANSI_EVENTS_LEAST_ROOM), "the least suffices");
    expect(taken == 2 && written == 1 && is(&events[0], ANSI_EVENTS_CSI, 'm', 0, 3), "a sequence ends");
    expect(room[events[0].start] == 31, "its field goes on from the piece before");
}

static void any_bytes_are_a_state(void)
{
    int byte;

    for (byte = 0; byte < 256; byte++) {
        memset(&it, byte, sizeof it);
        expect(goes_on("\030A", MOST, SIZE) && taken == 2, "all is taken");
        expect(written > 0 && events[written - 1].kind == ANSI_EVENTS_TEXT, "and a text ends it");
    }
}

/* A command of 1,024 bytes in 16 parts, which one byte ends. */
static void longest_command_has_room(void)
{
    size_t at;

    memset(&it, 0, sizeof it);
    memcpy(bytes, "\033]", 2);
    for (at = 2; at < 2 + 15; at++)
        bytes[at] = ';';
    memset(bytes + 17, 'x', 2000);
    expect(feed(&it.state, bytes, 2017, events, MOST, room, SIZE, &taken, &written, &used) && taken == 2017, "it is begun");
    expect(goes_on("\007", ANSI_EVENTS_LEAST_EVENTS, ANSI_EVENTS_LEAST_ROOM) && taken == 1, "one byte ends it");
    expect(written == 1 && is(&events[0], ANSI_EVENTS_OSC, 0, 1, 1039), "its parts have 1,039 bytes with what joins them");
}

/* Where events end, of which the state before the bytes tells, and no more than there are places for. */
static void events_have_ends(void)
{
    static const char text[] = "1ma\033]0;t\030b";
    ansi_events before;
    size_t ends[8];

    memset(&it, 0, sizeof it);
    goes_on("\033[3", MOST, SIZE);
    before = it.state;
    expect(goes_on(text, MOST, SIZE) && taken == 10 && written == 5, "there are five events");
    memset(ends, 0x7E, sizeof ends);
    expect(find_ends(&before, (const unsigned char *)text, taken, ends, 8) == 5, "and five ends");
    expect(ends[0] == 2 && ends[1] == 3 && ends[2] == 9 && ends[3] == 9 && ends[4] == 10, "each where its event is whole");
    expect(are((unsigned char *)&ends[5], sizeof ends - 5 * sizeof *ends, 0x7E), "what follows them is as it was");
    memset(ends, 0x7E, sizeof ends);
    expect(find_ends(&before, (const unsigned char *)text, taken, ends, 2) == 2, "two where there are two places");
    expect(ends[0] == 2 && ends[1] == 3 && are((unsigned char *)&ends[2], sizeof ends - 2 * sizeof *ends, 0x7E), "of the first events");
    expect(find_ends(&before, (const unsigned char *)text, 0, ends, 8) == 0, "no bytes have no ends");
    expect(find_ends(&before, (const unsigned char *)text, taken, ends, 0) == 0, "and none is asked for");
}

/* A command of so many bytes may be cut from 1,024 on; no other event is, and none whose bytes are not there. */
static void commands_may_be_cut(void)
{
    size_t count;

    for (count = 1022; count < 1027; count++) {
        memset(&it, 0, sizeof it);
        memcpy(bytes, "\033]", 2);
        memset(bytes + 2, 'x', count);
        bytes[count + 2] = '\007';
        expect(feed(&it.state, bytes, count + 3, events, MOST, room, SIZE, &taken, &written, &used) && written == 1, "it is a command");
        expect(may_be_cut(&events[0], room, used) == (count >= 1024), "which may be cut if it has all that is kept");
        expect(!may_be_cut(&events[0], room, used / 2), "and which is short where half of it is there");
        events[0].kind = ANSI_EVENTS_TEXT;
        expect(!may_be_cut(&events[0], room, used), "no text is");
        events[0].kind = ANSI_EVENTS_OSC;
        events[0].start = (size_t)-1;
        events[0].length = (size_t)-1;
        expect(!may_be_cut(&events[0], room, used), "and none that is not in the room");
    }
}

static int try_all(void)
{
    events_have_their_fields();
    a_run_is_one_event();
    little_is_refused();
    any_bytes_are_a_state();
    longest_command_has_room();
    events_have_ends();
    commands_may_be_cut();
    return failures != 0;
}

/* ------------------------------------------------------------------ the lines of calls */

/* The character at the front of UTF-8, and how many bytes it has. */
static unsigned long character(const unsigned char *at, size_t *count)
{
    unsigned long c = at[0];
    size_t next;

    *count = c < 0x80 ? 1 : c < 0xE0 ? 2 : c < 0xF0 ? 3 : 4;
    c = *count == 1 ? c : c & (0xFFu >> (*count + 1));
    for (next = 1; next < *count; next++)
        c = c << 6 | (at[next] & 0x3Fu);
    return c;
}

static void print_text(const unsigned char *at, size_t length)
{
    size_t count;

    for (; length > 0; at += count, length -= count)
        printf("print U+%04lX\n", character(at, &count));
}

static void print_intermediates(const ansi_event *event)
{
    size_t at;

    putchar(' ');
    for (at = 0; at < event->intermediate_count; at++)
        printf("%02X", event->intermediates[at]);
    if (event->intermediate_count == 0)
        putchar('-');
    printf(" %s %02X\n", event->flag ? "true" : "false", event->byte);
}

static void print_header(const char *name, const ansi_event *event)
{
    const unsigned char *field = room + event->start, *end = field + event->length;

    printf("%s [", name);
    for (; field < end; field += ANSI_EVENTS_FIELD)
        printf("%d%s", field[0] | field[1] << 8, field + ANSI_EVENTS_FIELD == end ? "" : field[2] ? ":" : ";");
    putchar(']');
    print_intermediates(event);
}

/* The parts, each after a space; an empty one is `-`. */
static void print_command(const ansi_event *event)
{
    const unsigned char *at = room + event->start, *end = at + event->length;
    bool empty = true;

    printf("osc_dispatch %s ", event->flag ? "true" : "false");
    for (; at < end; at++) {
        if (*at == ';')
            fputs(empty ? "- " : " ", stdout);
        else
            printf("%02X", *at);
        empty = *at == ';';
    }
    puts(empty ? "-" : "");
}

static void print_event(const ansi_event *event)
{
    switch (event->kind) {
    case ANSI_EVENTS_TEXT: print_text(room + event->start, event->length); break;
    case ANSI_EVENTS_EXECUTE: printf("execute %02X\n", event->byte); break;
    case ANSI_EVENTS_HOOK: print_header("hook", event); break;
    case ANSI_EVENTS_PUT: printf("put %02X\n", event->byte); break;
    case ANSI_EVENTS_UNHOOK: puts("unhook"); break;
    case ANSI_EVENTS_OSC: print_command(event); break;
    case ANSI_EVENTS_CSI: print_header("csi_dispatch", event); break;
    case ANSI_EVENTS_ESC: fputs("esc_dispatch", stdout); print_intermediates(event); break;
    }
}

static int print_all(size_t piece, size_t most, size_t size, bool quiet)
{
    ansi_events state;
    size_t count, at, event, all = 0;

    init(&state);
    while ((count = fread(bytes, 1, piece, stdin)) > 0)
        for (at = 0; at < count; at += taken) {
            if (!feed(&state, bytes + at, count - at, events, most, room, size, &taken, &written, &used))
                return 1;
            all += written;
            for (event = 0; event < written && !quiet; event++) {
                expect(is_bare(&events[event]), "what an event does not speak of is 0");
                print_event(&events[event]);
            }
        }
    if (quiet)
        printf("%lu\n", (unsigned long)all);
    return failures != 0;
}

int main(int count, char **words)
{
    bool quiet = count == 5 && strcmp(words[1], "quiet") == 0;
    size_t piece, most, size;

    if (count == 1)
        return try_all();
    if (count != 4 && !quiet)
        return 2;
    piece = (size_t)atol(words[quiet + 1]);
    most = (size_t)atol(words[quiet + 2]);
    size = (size_t)atol(words[quiet + 3]);
    if (piece == 0 || piece > LONGEST || most > MOST || size > SIZE)
        return 2;
    return print_all(piece, most, size, quiet);
}
