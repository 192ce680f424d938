/* Stands before the C library (LD_PRELOAD) and says on standard error, a line for each call, how a program makes or cuts a file, gives it
 * its rights and its place, and asks for it to be on the disk. With REFUSED=CALL that call is refused, and with OTHER_DEVICES each file has
 * the same number, on a device by the length of its name; then nothing is said. For tests/lib/files.py. */
#define _GNU_SOURCE
#include <dlfcn.h>
#include <errno.h>
#include <fcntl.h>
#include <stdarg.h>
#include <stdio.h>
#include <stdlib.h>
#include <string.h>
#include <sys/stat.h>
#include <sys/types.h>

static void said(const char *form, ...)
{
    va_list rest;

    if (getenv("REFUSED") || getenv("OTHER_DEVICES"))
        return;
    va_start(rest, form);
    vdprintf(2, form, rest);
    va_end(rest);
}

static int is_refused(const char *call)
{
    const char *refused = getenv("REFUSED");

    errno = EPERM;
    return refused && strcmp(refused, call) == 0;
}

int open(const char *path, int flags, ...)
{
    va_list rest;
    mode_t mode;

    va_start(rest, flags);
    mode = flags & O_CREAT ? va_arg(rest, mode_t) : 0;
    va_end(rest);
    if (flags & O_CREAT)
        said("open %o%s\n", mode, flags & O_EXCL ? "" : ", there or not");
    if (flags & O_TRUNC)
        said("it is cut\n");
    return ((int (*)(const char *, int, ...))dlsym(RTLD_NEXT, "open"))(path, flags, mode);
}

int ftruncate(int file, off_t length)
{
    said("it is cut\n");
    return ((int (*)(int, off_t))dlsym(RTLD_NEXT, "ftruncate"))(file, length);
}

int statx(int folder, const char *path, int flags, unsigned int mask, struct statx *found)
{
    int answer = ((int (*)(int, const char *, int, unsigned int, struct statx *))dlsym(RTLD_NEXT, "statx"))(folder, path, flags, mask, found);

    if (getenv("OTHER_DEVICES")) {
        found->stx_ino = 7;
        found->stx_dev_major = (unsigned int)strlen(path);
    }
    return answer;
}

int fchown(int file, uid_t owner, gid_t group)
{
    said("fchown %d %d\n", (int)owner, (int)group);
    return ((int (*)(int, uid_t, gid_t))dlsym(RTLD_NEXT, "fchown"))(file, owner, group);
}

int fchmod(int file, mode_t mode)
{
    said("fchmod %o\n", mode & 07777);
    return is_refused("fchmod") ? -1 : ((int (*)(int, mode_t))dlsym(RTLD_NEXT, "fchmod"))(file, mode);
}

int fsync(int file)
{
    said("fsync\n");
    return is_refused("fsync") ? -1 : ((int (*)(int))dlsym(RTLD_NEXT, "fsync"))(file);
}

int rename(const char *from, const char *to)
{
    said("rename\n");
    return is_refused("rename") ? -1 : ((int (*)(const char *, const char *))dlsym(RTLD_NEXT, "rename"))(from, to);
}
