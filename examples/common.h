/* What filter.c, page.c and safe.c share: the word that they are given, and a loop that reads, feeds and writes. Each has a loop of its own
 * over its call of the library, which is what it is there to show: whoever copies one of them takes this file along, and no other. */
#include <errno.h>
#include <stdbool.h>
#include <stdio.h>
#include <string.h>
#include <unistd.h>

#define MOST 4096

/* The number that the word is, in decimal, or 0 where it is none from 1 to MOST. */
static size_t most_of(const char *word)
{
    size_t most = 0;

    for (; *word >= '0' && *word <= '9' && most <= MOST; word++)
        most = most * 10 + (size_t)(*word - '0');
    return *word == '\0' && most <= MOST ? most : 0;
}

static bool write_all(const unsigned char *text, size_t length)
{
    while (length > 0) {
        ssize_t count = write(STDOUT_FILENO, text, length);
        if (count < 0 && errno == EINTR)
            continue;
        if (count <= 0)
            return false;
        text += count;
        length -= (size_t)count;
    }
    return true;
}

static int failed(const char *name, const char *what)
{
    fprintf(stderr, "%s: %s failed: %s\n", name, what, strerror(errno));
    return 1;
}

/* Reads standard input, in pieces of as many bytes as the word says, and gives each to feed before more is waited for;
 * and where all is read calls end. Both write what there is to write, and answer false where that fails. */
static int run(const char *name, int argc, char **argv, bool (*feed)(const unsigned char *, size_t), bool (*end)(void))
{
    static unsigned char bytes[MOST];
    size_t most = argc == 2 ? most_of(argv[1]) : MOST;

    if (argc > 2 || most == 0) {
        fprintf(stderr, "usage: %s [BYTES]     BYTES is 1 to %d\n", name, MOST);
        return 2;
    }
    for (;;) {
        ssize_t count = read(STDIN_FILENO, bytes, most);
        if (count == 0)
            return end() ? 0 : failed(name, "write");
        if (count < 0 && errno == EINTR)
            continue;
        if (count < 0)
            return failed(name, "read");
        if (!feed(bytes, (size_t)count))
            return failed(name, "write");
    }
}
