/* Says how many bytes of the stack ansi_html_feed and ansi_html_end take at most, of a stream on standard input, or those of
 * ansi_safe.h where SAFE is defined: those that are no more as they were, on a stack of a thread's own. */
#ifdef SAFE
#include "ansi_safe.h"
#define STATE ansi_safe
#define FEED ansi_safe_feed
#define END ansi_safe_end
#else
#include "ansi_html.h"
#define STATE ansi_html
#define FEED ansi_html_feed
#define END ansi_html_end
#endif

#include <pthread.h>
#include <stdio.h>
#include <string.h>

enum { STACK = 256 << 10, MARK = 0xA5 };

static _Alignas(4096) unsigned char stack[STACK];
static unsigned char stream[1 << 20], room[16384];
static size_t count;
static STATE state;

static void *nothing(void *given)
{
    return given;
}

static void *converted(void *given)
{
    size_t at = 0, taken, written;

    while (at < count) {
        if (!FEED(&state, stream + at, count - at, room, sizeof room, &taken, &written))
            return NULL;
        at += taken;
    }
    return END(&state, room, sizeof room, &written) ? given : NULL;
}

/* The bytes that a thread touches, or 0 where it does not go well. */
static size_t touched(void *(*run)(void *))
{
    pthread_attr_t own;
    pthread_t thread;
    void *answer = NULL;
    size_t at = 0;

    memset(stack, MARK, sizeof stack);
    if (pthread_attr_init(&own) || pthread_attr_setstack(&own, stack, sizeof stack))
        return 0;
    if (pthread_create(&thread, &own, run, &count) || pthread_join(thread, &answer) || answer == NULL)
        return 0;
    while (at < sizeof stack && stack[at] == MARK)
        at++;
    return sizeof stack - at;
}

int main(void)
{
    size_t before, behind;

    count = fread(stream, 1, sizeof stream, stdin);
    before = touched(nothing);
    behind = touched(converted);
    if (before == 0 || behind <= before)
        return 1;
    printf("%zu\n", behind - before);
    return 0;
}
