/* Stands between the system and a program that keeps a file, and disturbs its calls as the environment says. It is linked with --wrap= for each of them.

     KILL_AT=n    kills the program before its n-th call, or in the middle of it where it writes; the program's end counts as the last one
     LOSES=bytes  then the power is cut, too: a file that was written and not synced is empty, whatever its name is by now
     LOSES=names  likewise, on a disk that puts a rename off until the folder is synced
     FAIL_AT=n    lets the n-th call fail, with the errno FAIL_WITH
     SHORT=n      lets reads and writes move n bytes at most, and interrupts every other one */
#define _DEFAULT_SOURCE
#include <errno.h>
#include <fcntl.h>
#include <libgen.h>
#include <signal.h>
#include <stdarg.h>
#include <stdio.h>
#include <stdlib.h>
#include <string.h>
#include <sys/stat.h>
#include <unistd.h>

#define ROOM 4096

int __real_open(const char *path, int flags, ...);
int __real_flock(int fd, int how);
ssize_t __real_read(int fd, void *bytes, size_t length);
ssize_t __real_write(int fd, const void *bytes, size_t length);
int __real_fsync(int fd);
int __real_close(int fd);
int __real_rename(const char *from, const char *to);

static long calls;
static int unsynced[ROOM], files;           /* descriptors of our own: the program may close its file, and rename it */
static char late_from[ROOM], late_to[ROOM]; /* the rename that is put off, if any */

static long setting(const char *name)
{
    const char *text = getenv(name);
    return text ? atol(text) : 0;
}

static ino_t file_of(int fd)
{
    struct stat status;
    return fstat(fd, &status) == 0 ? status.st_ino : 0;
}

static ino_t folder_of(const char *path)
{
    char copy[ROOM];
    struct stat status;
    snprintf(copy, sizeof copy, "%s", path);
    return stat(dirname(copy), &status) == 0 ? status.st_ino : 0;
}

static int loses(const char *what)
{
    const char *text = getenv("LOSES");
    return text && strcmp(text, what) == 0;
}

/* What was printed counts as told: a terminal would show it by now. */
static void kill_here(void)
{
    fflush(stdout);
    for (int i = 0; (loses("bytes") || loses("names")) && i < files; i++)
        if (ftruncate(unsynced[i], 0) != 0)
            abort();
    raise(SIGKILL);
}

/* Counts a call; the answer is whether it is to fail. */
static int fails(void)
{
    if (++calls == setting("KILL_AT"))
        kill_here();
    if (calls != setting("FAIL_AT"))
        return 0;
    errno = (int)setting("FAIL_WITH");
    return 1;
}

/* Cuts the length of a read or write; the answer is whether it is interrupted instead. */
static int interrupted(size_t *length)
{
    static int times;
    size_t most = (size_t)setting("SHORT");
    if (most == 0)
        return 0;
    *length = *length < most ? *length : most;
    errno = EINTR;
    return times++ % 2 == 0;
}

int __wrap_open(const char *path, int flags, ...)
{
    va_list rest;
    va_start(rest, flags);
    unsigned mode = flags & O_CREAT ? va_arg(rest, unsigned) : 0;
    va_end(rest);
    return fails() ? -1 : __real_open(path, flags, mode);
}

int __wrap_flock(int fd, int how)
{
    return fails() ? -1 : __real_flock(fd, how);
}

ssize_t __wrap_read(int fd, void *bytes, size_t length)
{
    return fails() || interrupted(&length) ? -1 : __real_read(fd, bytes, length);
}

ssize_t __wrap_write(int fd, const void *bytes, size_t length)
{
    unsynced[files++] = dup(fd);
    if (calls + 1 == setting("KILL_AT") && __real_write(fd, bytes, length / 2) < 0)
        abort();
    return fails() || interrupted(&length) ? -1 : __real_write(fd, bytes, length);
}

int __wrap_fsync(int fd)
{
    if (fails())
        return -1;
    for (int i = files; i-- > 0;)
        if (file_of(unsynced[i]) == file_of(fd)) {
            __real_close(unsynced[i]);
            unsynced[i] = unsynced[--files];
        }
    if (*late_to && file_of(fd) == folder_of(late_to) && __real_rename(late_from, late_to) == 0)
        *late_to = '\0';
    return __real_fsync(fd);
}

/* Where nothing was written, nothing can be lost: the call does not count. */
int __wrap_close(int fd)
{
    int counts = (fcntl(fd, F_GETFL) & O_ACCMODE) != O_RDONLY, failed = counts && fails(), wrong = errno;
    __real_close(fd);
    errno = wrong;
    return failed ? -1 : 0;
}

int __wrap_rename(const char *from, const char *to)
{
    if (fails())
        return -1;
    if (!loses("names"))
        return __real_rename(from, to);
    snprintf(late_from, sizeof late_from, "%s", from);
    snprintf(late_to, sizeof late_to, "%s", to);
    return 0;
}

/* The end is a step, too: what was told by then must last. */
__attribute__((destructor)) static void end(void)
{
    fails();
    if (*late_to)
        __real_rename(late_from, late_to);
}
