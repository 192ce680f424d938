/* What is typed at a terminal: the bytes that it sends, as keys, the mouse, what is pasted and the focus. pane.c takes it along.
 *
 * Keys are read as xterm sends them (its ctlseqs, "PC-Style Function Keys"), the mouse in the form of SGR (1006), and what is pasted
 * between its brackets (2004). A key that comes as ESC and a character is that character with Alt. */
#include "ansi_screen.h"

#include <string.h>

enum typed_kind { TYPED_NOTHING, TYPED_KEY, TYPED_MOUSE, TYPED_FOCUS, TYPED_PASTE };

struct typed {
    enum typed_kind kind;
    ansi_key key;
    ansi_mouse mouse;
    bool has_focus;
    const unsigned char *text; /* what is pasted */
    size_t length;
};

/* ESC [, a mark, numbers with ; between them, and the byte that ends it; or ESC O and that byte. */
struct sequence {
    unsigned char mark, last;
    unsigned numbers[3];
};

/* How many bytes the sequence has that stands first, after ESC; 0 where its end has not come. */
static size_t read_sequence(const unsigned char *bytes, size_t count, struct sequence *found)
{
    size_t at = 2, number = 0;

    *found = (struct sequence){0};
    if (count > 2 && bytes[1] == '[' && bytes[2] >= '<' && bytes[2] <= '?')
        found->mark = bytes[at++];
    for (; at < count; at++) {
        if (bytes[at] >= '0' && bytes[at] <= '9') {
            if (number < 3 && found->numbers[number] < 10000)
                found->numbers[number] = found->numbers[number] * 10 + bytes[at] - '0';
        } else if (bytes[at] == ';') {
            number++;
        } else {
            found->last = bytes[at];
            return at + 1;
        }
    }
    return 0;
}

/* The key that ends with ~, by its number; 0 is none. */
static uint8_t numbered_key(unsigned number)
{
    static const uint8_t keys[] = {0, ANSI_KEY_HOME, ANSI_KEY_INSERT, ANSI_KEY_DELETE, ANSI_KEY_END, ANSI_KEY_PAGE_UP,
        ANSI_KEY_PAGE_DOWN, ANSI_KEY_HOME, ANSI_KEY_END};
    static const uint8_t functions[] = {1, 2, 3, 4, 5, 0, 6, 7, 8, 9, 10, 0, 11, 12, 13, 14, 0, 15, 16, 0, 17, 18, 19, 20};

    if (number < sizeof keys)
        return keys[number];
    if (number < 11 || number - 11 >= sizeof functions || functions[number - 11] == 0)
        return 0;
    return (uint8_t)(ANSI_KEY_FUNCTION + functions[number - 11]);
}

/* The key of a sequence; 0 is none. */
static uint8_t sequence_key(const struct sequence *sequence)
{
    switch (sequence->last) {
    case 'A': return ANSI_KEY_UP;
    case 'B': return ANSI_KEY_DOWN;
    case 'C': return ANSI_KEY_RIGHT;
    case 'D': return ANSI_KEY_LEFT;
    case 'F': return ANSI_KEY_END;
    case 'H': return ANSI_KEY_HOME;
    case 'P': case 'Q': case 'R': case 'S': return (uint8_t)(ANSI_KEY_FUNCTION + 1 + sequence->last - 'P');
    case 'Z': return ANSI_KEY_TAB;
    case '~': return numbered_key(sequence->numbers[0]);
    }
    return 0;
}

/* The mouse: what its first number has beside the button, 4 for Shift, 8 for Alt, 16 for Control and 32 for a move, are bits. */
static void read_mouse(const struct sequence *sequence, struct typed *typed)
{
    unsigned code = sequence->numbers[0], button = code & 3;

    if (sequence->numbers[1] == 0 || sequence->numbers[2] == 0)
        return;
    typed->kind = TYPED_MOUSE;
    typed->mouse.column = (uint16_t)(sequence->numbers[1] - 1);
    typed->mouse.row = (uint16_t)(sequence->numbers[2] - 1);
    typed->mouse.modifiers = code >> 2 & 7;
    typed->mouse.action = sequence->last == 'm' ? ANSI_MOUSE_RELEASE : code & 32 ? ANSI_MOUSE_MOVE : ANSI_MOUSE_PRESS;
    typed->mouse.button = (uint8_t)(code & 128 ? 8 + button : code & 64 ? 4 + button : button == 3 ? 0 : 1 + button);
}

/* What a sequence says: the mouse, the focus, or a key, whose second number is 1 and what is held. */
static void read_said(const struct sequence *sequence, struct typed *typed)
{
    if (sequence->mark == '<' && (sequence->last == 'M' || sequence->last == 'm')) {
        read_mouse(sequence, typed);
    } else if (sequence->mark == 0 && (sequence->last == 'I' || sequence->last == 'O')) {
        typed->kind = TYPED_FOCUS;
        typed->has_focus = sequence->last == 'I';
    } else if (sequence->mark == 0 && sequence_key(sequence)) {
        typed->kind = TYPED_KEY;
        typed->key.key = sequence_key(sequence);
        typed->key.modifiers = (uint8_t)(sequence->numbers[1] ? sequence->numbers[1] - 1 : 0);
        if (sequence->last == 'Z')
            typed->key.modifiers |= ANSI_HELD_SHIFT;
    }
}

/* What is pasted, up to ESC [ 201 ~; 0 where that has not come. */
static size_t read_paste(const unsigned char *bytes, size_t count, size_t start, struct typed *typed)
{
    const unsigned char *end, *past = bytes + count;

    for (end = bytes + start; end < past && (end = memchr(end, 0x1B, (size_t)(past - end))) != NULL; end++) {
        if (past - end >= 6 && memcmp(end, "\033[201~", 6) == 0) {
            typed->kind = TYPED_PASTE;
            typed->text = bytes + start;
            typed->length = (size_t)(end - typed->text);
            return (size_t)(end + 6 - bytes);
        }
    }
    return 0;
}

/* A key that types a character, or a control: with Control a key types what its character has in its last five bits. */
static void set_character(uint32_t character, ansi_key *key)
{
    switch (character) {
    case '\r': key->key = ANSI_KEY_ENTER; return;
    case '\t': key->key = ANSI_KEY_TAB; return;
    case 0x7F: key->key = ANSI_KEY_BACKSPACE; return;
    case 0x1B: key->key = ANSI_KEY_ESCAPE; return;
    }
    key->character = character;
    if (character < ' ') {
        key->modifiers |= ANSI_HELD_CONTROL;
        key->character += character == 0 ? ' ' : character <= 26 ? 0x60 : 0x40;
    } else if (character >= 'A' && character <= 'Z') {
        key->modifiers |= ANSI_HELD_SHIFT;
        key->character += 'a' - 'A';
        key->shifted = character;
    }
}

/* A character in UTF-8 that is typed; 0 where its end has not come. What is no UTF-8 is nothing. */
static size_t read_character(const unsigned char *bytes, size_t count, bool is_all, struct typed *typed)
{
    size_t length = bytes[0] < 0xC0 ? 1 : bytes[0] < 0xE0 ? 2 : bytes[0] < 0xF0 ? 3 : 4, at;
    uint32_t character = length == 1 ? bytes[0] : bytes[0] & (0x7Fu >> length);

    for (at = 1; at < length && at < count && (bytes[at] & 0xC0) == 0x80; at++)
        character = character << 6 | (bytes[at] & 0x3F);
    if (at < length)
        return at < count || is_all ? at : 0;
    if (length > 1 || bytes[0] < 0x80) {
        typed->kind = TYPED_KEY;
        set_character(character, &typed->key);
    }
    return length;
}

/* Reads what stands first among the bytes that were typed, one at least, and answers how many bytes that has; or 0 where more of it has
 * to come. Where nothing more comes for a while, ESC is a key by itself, or Alt; then 0 is what never ends, as a paste. */
static size_t read_typed(const unsigned char *bytes, size_t count, bool is_all, struct typed *typed)
{
    struct sequence sequence;
    size_t length;

    *typed = (struct typed){.kind = TYPED_NOTHING};
    if (bytes[0] != 0x1B || (count > 1 && bytes[1] == 0x1B))
        return read_character(bytes, count, is_all, typed);
    if (count > 2 && (bytes[1] == '[' || bytes[1] == 'O')) {
        length = read_sequence(bytes, count, &sequence);
        if (length && sequence.last == '~' && sequence.numbers[0] == 200)
            return read_paste(bytes, count, length, typed);
        read_said(&sequence, typed);
        if (length)
            return length;
    }
    if (!is_all && (count == 1 || bytes[1] == '[' || bytes[1] == 'O'))
        return 0;
    if (count == 1)
        return read_character(bytes, count, is_all, typed);
    length = read_character(bytes + 1, count - 1, is_all, typed);
    typed->key.modifiers |= ANSI_HELD_ALT;
    return length ? length + 1 : 0;
}
