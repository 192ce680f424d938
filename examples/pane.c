/* Runs a command in a pane: a terminal of its own, whose screen is shown at the top left of this one.
 *
 * Usage: pane COLUMNS ROWS COMMAND [WORD..]
 *
 * What the command writes goes to a screen of the library. Then the rows that look otherwise than before are written anew,
 * and nothing else: the command can't reach past its pane, whatever it writes. Of this terminal the pane asks what the command asks of
 * the mouse, pastes and the focus. What is typed is read as keys (typed.h), which the screen tells the command in the form that this has
 * asked for. The screen answers what the command asks; its title and its bell are this terminal's.
 * A multiplexer has several such panes; here is one. The status is that of the command, 1 where something failed, and 2 where
 * words are wrong. */
#define _XOPEN_SOURCE 700
#define _DEFAULT_SOURCE
#include "style.h"
#include "typed.h"

#include <errno.h>
#include <fcntl.h>
#include <poll.h>
#include <signal.h>
#include <stdio.h>
#include <stdlib.h>
#include <sys/ioctl.h>
#include <sys/wait.h>
#include <termios.h>
#include <time.h>
#include <unistd.h>

/* Bytes that wait, in memory that grows. */
struct bytes {
    unsigned char *first;
    size_t count, room;
};

/* Where more bytes wait for the command, no more is taken of what is typed and of what the screen answers. */
#define MOST_QUEUED 65536
#define ESCAPE_TIME 30 /* milliseconds after which ESC is a key by itself */

/* A screen, and the cells that this terminal shows of it; what was typed and is not read yet; what the command has not read yet. */
struct pane {
    ansi_screen screen;
    size_t columns, rows;
    ansi_cell *shown, *row;
    struct bytes typed, queued;
    ansi_modes asked; /* of this terminal: the mouse, the focus and pastes alone */
    bool has_title, has_shape;
    long due; /* when what was typed and is not whole is taken as it is, in milliseconds; 0 is never */
};

/* Where so many bytes can be written after those that wait; NULL where there is no memory. */
static unsigned char *room_in(struct bytes *bytes, size_t count)
{
    size_t room = 2 * (bytes->count + count);
    unsigned char *first;

    if (bytes->room - bytes->count >= count)
        return bytes->first + bytes->count;
    first = realloc(bytes->first, room);
    if (!first)
        return NULL;
    bytes->first = first;
    bytes->room = room;
    return first + bytes->count;
}

static void drop(struct bytes *bytes, size_t count)
{
    bytes->count -= count;
    memmove(bytes->first, bytes->first + count, bytes->count);
}

static bool open_pane(struct pane *pane, size_t columns, size_t rows)
{
    *pane = (struct pane){.columns = columns, .rows = rows};
    pane->shown = calloc(columns * rows, sizeof *pane->shown);
    pane->row = calloc(columns, sizeof *pane->row);
    return pane->shown && pane->row && ansi_screen_open(&pane->screen, columns, rows);
}

static void close_pane(struct pane *pane)
{
    ansi_screen_close(&pane->screen);
    free(pane->shown);
    free(pane->row);
    free(pane->typed.first);
    free(pane->queued.first);
}

/* ------------------------------------------------------------------ what is written */

static void put_row(struct pane *pane, size_t row)
{
    unsigned char text[ANSI_SCREEN_ROW_ROOM(1)];
    size_t column, written;

    printf("\033[%zuH", row + 1);
    for (column = 0; column < pane->columns; column++) {
        if (!column || memcmp(&pane->row[column].style, &pane->row[column - 1].style, sizeof(ansi_style)))
            put_style(&pane->row[column].style);
        if (ansi_screen_part_text(&pane->screen, row, column, column + 1, text, sizeof text, &written))
            fwrite(text, 1, written, stdout);
    }
}

/* Writes the rows that have changed, and puts the cursor where it is. */
static bool show(struct pane *pane)
{
    ansi_modes modes = {0};
    size_t row, column, size = pane->columns * sizeof *pane->row;

    fputs("\033[?25l\033[?7l", stdout);
    for (row = 0; row < pane->rows; row++) {
        ansi_cell *shown = pane->shown + row * pane->columns;

        if (ansi_screen_row(&pane->screen, row, pane->row, pane->columns) && memcmp(shown, pane->row, size)) {
            put_row(pane, row);
            memcpy(shown, pane->row, size);
        }
    }
    ansi_screen_cursor(&pane->screen, &row, &column);
    ansi_screen_modes(&pane->screen, &modes);
    printf("\033[0m\033[?7h\033[%zu;%zuH%s", row + 1, column < pane->columns ? column + 1 : pane->columns,
           modes.cursor_shown ? "\033[?25h" : "");
    return fflush(stdout) == 0;
}

/* ------------------------------------------------------------------ what the command asks for */

/* Asks of this terminal what is wanted of the mouse, the focus and pastes, and no longer what is not. */
static void ask(struct pane *pane, const ansi_modes *wanted)
{
    static const unsigned mouse[] = {0, 1000, 1000, 1002, 1003};

    if (pane->asked.mouse != wanted->mouse) {
        if (pane->asked.mouse)
            printf("\033[?%u;1006l", mouse[pane->asked.mouse]);
        if (wanted->mouse)
            printf("\033[?%u;1006h", mouse[wanted->mouse]);
    }
    if (pane->asked.focus != wanted->focus)
        printf("\033[?1004%c", wanted->focus ? 'h' : 'l');
    if (pane->asked.paste != wanted->paste)
        printf("\033[?2004%c", wanted->paste ? 'h' : 'l');
    pane->asked = *wanted;
}

/* Writes the title, which has no control, to this terminal. While there is one, this keeps its own (XTWINOPS). */
static void put_title(struct pane *pane)
{
    unsigned char text[ANSI_SCREEN_TITLE_ROOM];
    size_t written;

    if (!ansi_screen_title(&pane->screen, text, sizeof text, &written))
        return;
    if (pane->has_title != (written > 0))
        printf("\033[2%d;2t", written ? 2 : 3);
    if (written)
        printf("\033]2;%.*s\033\\", (int)written, (const char *)text);
    pane->has_title = written > 0;
}

/* Does what the command has asked for beside the screen. */
static void heed(struct pane *pane)
{
    ansi_modes modes = {0};
    uint16_t asked = 0;

    ansi_screen_modes(&pane->screen, &modes);
    ansi_screen_asked(&pane->screen, &asked);
    ask(pane, &modes);
    if (asked & ANSI_ASKED_TITLE)
        put_title(pane);
    if (asked & ANSI_ASKED_BELL)
        putchar('\a');
    if (asked & ANSI_ASKED_CURSOR) {
        printf("\033[%d q", modes.cursor_shape ? 2 * modes.cursor_shape - modes.cursor_blinks : 0);
        pane->has_shape = true;
    }
}

/* Leaves this terminal as it was, but for what stands in the pane. */
static void undo(struct pane *pane)
{
    ask(pane, &(ansi_modes){0});
    if (pane->has_title)
        fputs("\033[23;2t", stdout);
    if (pane->has_shape)
        fputs("\033[0 q", stdout);
    printf("\033[%zuH\r\n\033[?25h", pane->rows);
}

/* ------------------------------------------------------------------ what the command reads */

/* Queues what the screen answers to what the command asked. */
static bool queue_answers(struct pane *pane)
{
    unsigned char *room = room_in(&pane->queued, ANSI_SCREEN_ANSWERS_ROOM);
    size_t written = 0;
    uint8_t lost;

    if (room && ansi_screen_answers(&pane->screen, room, ANSI_SCREEN_ANSWERS_ROOM, &written, &lost))
        pane->queued.count += written;
    return room != NULL;
}

/* What is done with the mouse beyond the pane is not for the command, but for a button that comes up. */
static bool is_inside(const struct pane *pane, const ansi_mouse *mouse)
{
    return (mouse->column < pane->columns && mouse->row < pane->rows) || mouse->action == ANSI_MOUSE_RELEASE;
}

/* Queues what the command reads of what is typed. */
static bool queue_typed(struct pane *pane, const struct typed *typed)
{
    size_t size = ANSI_SCREEN_KEY_ROOM + typed->length, written = 0; /* (a paste gains its two brackets) */
    unsigned char *room = room_in(&pane->queued, size);

    if (!room)
        return false;
    switch (typed->kind) {
    case TYPED_KEY: ansi_screen_key(&pane->screen, &typed->key, room, size, &written); break;
    case TYPED_MOUSE:
        if (is_inside(pane, &typed->mouse))
            ansi_screen_mouse(&pane->screen, &typed->mouse, room, size, &written);
        break;
    case TYPED_FOCUS: ansi_screen_focus(&pane->screen, typed->has_focus, room, size, &written); break;
    case TYPED_PASTE: ansi_screen_paste(&pane->screen, typed->text, typed->length, room, size, &written); break;
    case TYPED_NOTHING: break;
    }
    pane->queued.count += written;
    return true;
}

/* Queues all that has been typed as far as it is whole. */
static bool queue_all(struct pane *pane, bool is_all)
{
    struct typed typed;
    size_t at = 0, length = 1;

    while (at < pane->typed.count && length) {
        length = read_typed(pane->typed.first + at, pane->typed.count - at, is_all, &typed);
        if (length && !queue_typed(pane, &typed))
            return false;
        at += length;
    }
    drop(&pane->typed, at);
    return true;
}

/* ------------------------------------------------------------------ the command */

/* Starts the command on a terminal of the pane's size, and answers the other end of that; or -1. */
static int start(const struct pane *pane, char **words, pid_t *child)
{
    struct winsize size = {.ws_col = (unsigned short)pane->columns, .ws_row = (unsigned short)pane->rows};
    int other, end = posix_openpt(O_RDWR | O_NOCTTY);

    if (end < 0 || grantpt(end) || unlockpt(end))
        return -1;
    fflush(stdout);
    *child = fork();
    if (*child)
        return *child < 0 ? -1 : end;
    setsid();
    signal(SIGHUP, SIG_DFL); /* (nohup has it ignored, and then no command would end with the pane) */
    other = open(ptsname(end), O_RDWR);
    if (other < 0 || ioctl(other, TIOCSWINSZ, &size) || dup2(other, 0) < 0 || dup2(other, 1) < 0 || dup2(other, 2) < 0)
        _exit(126);
    close(end);
    if (other > 2)
        close(other);
    setenv("TERM", "xterm-256color", 1);
    execvp(words[0], words);
    perror(words[0]);
    _exit(127);
}

static long milliseconds(void)
{
    struct timespec now;

    clock_gettime(CLOCK_MONOTONIC, &now);
    return (long)now.tv_sec * 1000 + now.tv_nsec / 1000000;
}

/* Reads what is typed. What is not whole waits for more; not for long, where it can be a key by itself. */
static bool take_typed(struct pane *pane, struct pollfd *input)
{
    unsigned char *room = room_in(&pane->typed, MOST_QUEUED);
    ssize_t count = room ? read(0, room, MOST_QUEUED) : 0;

    if (count > 0)
        pane->typed.count += (size_t)count;
    else
        input->fd = -1; /* (nothing more is typed) */
    if (!room || !queue_all(pane, false))
        return false;
    pane->due = pane->typed.count ? milliseconds() + ESCAPE_TIME : 0;
    return true;
}

/* Reads what the command writes, and shows it. */
static bool take_written(struct pane *pane, int end, bool *has_ended)
{
    static unsigned char bytes[65536];
    ssize_t count = read(end, bytes, sizeof bytes);

    if (count < 0 && errno == EAGAIN)
        return true;
    *has_ended = count <= 0; /* (Linux answers EIO where the command has ended) */
    if (*has_ended)
        return true;
    if (!ansi_screen_feed(&pane->screen, bytes, (size_t)count))
        return false;
    heed(pane);
    return show(pane);
}

/* Writes to the command what it takes of what waits for it. */
static void give(struct pane *pane, int end)
{
    ssize_t count = write(end, pane->queued.first, pane->queued.count);

    if (count > 0)
        drop(&pane->queued, (size_t)count);
}

/* Waits for one of both ends: not for long, where what is typed may be all. */
static bool wait_for(struct pane *pane, struct pollfd *ends)
{
    long left = pane->due ? pane->due - milliseconds() : -1;

    ends[0].events = POLLIN | (pane->queued.count ? POLLOUT : 0);
    ends[1].events = pane->queued.count > MOST_QUEUED ? 0 : POLLIN;
    ends[0].revents = ends[1].revents = 0;
    return poll(ends, 2, pane->due && left < 0 ? 0 : (int)left) >= 0 || errno == EINTR;
}

/* Passes on what is typed and what the screen answers, and shows what the command writes, until it has ended. No write waits for the
 * command: while it does not read, what it writes is read all the same. */
static bool follow(struct pane *pane, int end)
{
    struct pollfd ends[] = {{.fd = end}, {.fd = 0}};
    bool has_ended = false, is_well = true;

    while (is_well && !has_ended) {
        if (!wait_for(pane, ends))
            return false;
        if (ends[1].revents) {
            is_well = take_typed(pane, &ends[1]);
        } else if (pane->due && milliseconds() >= pane->due) {
            pane->due = 0;
            is_well = queue_all(pane, true);
        }
        if (ends[0].revents & POLLOUT)
            give(pane, end);
        if (ends[0].revents & ~POLLOUT)
            is_well = take_written(pane, end, &has_ended) && is_well;
        if (pane->queued.count <= MOST_QUEUED)
            is_well = queue_answers(pane) && is_well;
    }
    return is_well;
}

static int run(struct pane *pane, char **words)
{
    struct termios kept, raw;
    bool is_terminal = tcgetattr(0, &kept) == 0, went_well;
    pid_t child;
    int status, end = start(pane, words, &child);

    if (end < 0 || fcntl(end, F_SETFL, O_NONBLOCK))
        return perror("pane"), 1;
    if (is_terminal) {
        raw = kept;
        cfmakeraw(&raw);
        tcsetattr(0, TCSANOW, &raw);
    }
    fputs("\033[2J", stdout);
    went_well = follow(pane, end);
    undo(pane);
    went_well = fflush(stdout) == 0 && went_well;
    if (is_terminal)
        tcsetattr(0, TCSANOW, &kept);
    if (!went_well)
        kill(child, SIGHUP);
    /* (closed first, the end would hang up on a command that is about to exit) */
    if (waitpid(child, &status, 0) != child || close(end) || !went_well)
        return 1;
    return WIFEXITED(status) ? WEXITSTATUS(status) : 128 + WTERMSIG(status);
}

int main(int count, char **words)
{
    struct pane pane;
    int status;

    if (count < 4)
        return fputs("usage: pane COLUMNS ROWS COMMAND [WORD..]\n", stderr), 2;
    if (!open_pane(&pane, strtoul(words[1], NULL, 10), strtoul(words[2], NULL, 10))) {
        fputs("pane: there is no screen of that size, or no memory\n", stderr);
        close_pane(&pane);
        return 2;
    }
    status = run(&pane, words + 3);
    close_pane(&pane);
    return status;
}
