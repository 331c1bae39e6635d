/*
 * Preloaded before a program, writes down its calls of the file system, and fails some of them.
 *
 * CALLS_LOG    the file that gets a line for each call
 * CALLS_UNDER  a folder: only calls on it and on what lies in it are written down and counted,
 *              and the writes to standard output, which are never failed
 * CALLS_FAIL   which calls fail, joined by commas: KIND:N:ERRNO fails the N-th call of a kind,
 *              counted from 1, and KIND:N+:ERRNO that one and all that follow. A call that fails
 *              does nothing else. With ERRNO 0 a write takes half of its bytes
 * CALLS_KILL   the program is killed before the call of this number, counted over all that are
 *              written down, from 1
 *
 * A line is 'KIND PATH RESULT', and after that the numbers that the call was given: of an open its
 * flags and its mode, of a write and a read how many bytes, of a read also the place, of a rename
 * the new path. RESULT is what the call returned, or 'failed ERRNO'. Flags and modes are octal.
 */
#define _GNU_SOURCE
#include <dirent.h>
#include <dlfcn.h>
#include <errno.h>
#include <fcntl.h>
#include <limits.h>
#include <signal.h>
#include <stdarg.h>
#include <stdio.h>
#include <stdlib.h>
#include <string.h>
#include <sys/file.h>
#include <sys/stat.h>
#include <sys/types.h>
#include <unistd.h>

#define REAL(type, name, ...) \
    static type (*real)(__VA_ARGS__); \
    if (real == NULL) real = (type (*)(__VA_ARGS__))dlsym(RTLD_NEXT, name)

enum kind { OPEN, WRITE, READ, FSYNC, FDATASYNC, RENAME, UNLINK, FLOCK, GETDENTS64, MKDIR, STATX, KINDS };

static const char *const names[KINDS] = {
    "open", "write", "read", "fsync", "fdatasync", "rename", "unlink", "flock", "getdents64", "mkdir", "statx",
};
static unsigned long counts[KINDS];

static ssize_t put(int fd, const void *bytes, size_t count)
{
    REAL(ssize_t, "write", int, const void *, size_t);
    return real(fd, bytes, count);
}

static int open_really(const char *path, int flags, mode_t mode)
{
    REAL(int, "open", const char *, int, ...);
    return real(path, flags, mode);
}

static int log_fd(void)
{
    static int fd = -2;
    const char *path = getenv("CALLS_LOG");
    if (fd == -2) fd = path == NULL ? -1 : open_really(path, O_WRONLY | O_APPEND | O_CREAT | O_CLOEXEC, 0600);
    return fd;
}

static int is_under(const char *path)
{
    const char *under = getenv("CALLS_UNDER");
    size_t length = under == NULL ? 0 : strlen(under);
    return length != 0 && strncmp(path, under, length) == 0 && (path[length] == '/' || path[length] == 0);
}

/* The path that a descriptor is open on, as it is named at this moment. */
static const char *path_of(int fd, char *room)
{
    char link[64];
    ssize_t length;
    snprintf(link, sizeof link, "/proc/self/fd/%d", fd);
    length = readlink(link, room, PATH_MAX - 1);
    room[length < 0 ? 0 : length] = 0;
    return room;
}

/* Counts a call, and kills the program if it is the one that is not to come. */
static void pass_on(void)
{
    static unsigned long count;
    const char *at = getenv("CALLS_KILL");
    if (at != NULL && ++count == strtoul(at, NULL, 10)) kill(getpid(), SIGKILL);
}

/* The errno that this call of a kind is to fail with, 0 for half a write, or -1 where it goes on. */
static int failure(enum kind kind)
{
    const char *at = getenv("CALLS_FAIL");
    unsigned long count = ++counts[kind];
    while (at != NULL && *at != 0) {
        char name[16], more[2] = "";
        unsigned long number;
        int error;
        int is_one = sscanf(at, "%15[a-z0-9]:%lu:%d", name, &number, &error) == 3;
        if (is_one || sscanf(at, "%15[a-z0-9]:%lu%1[+]:%d", name, &number, more, &error) == 4)
            if (strcmp(name, names[kind]) == 0 && (count == number || (more[0] == '+' && count > number)))
                return error;
        at = strchr(at, ',');
        if (at != NULL) at++;
    }
    return -1;
}

static void say(enum kind kind, const char *path, long result, int error, const char *more)
{
    char line[3 * PATH_MAX];
    int length;
    if (log_fd() < 0) return;
    if (result < 0)
        length = snprintf(line, sizeof line, "%s %s failed %d%s\n", names[kind], path, error, more);
    else
        length = snprintf(line, sizeof line, "%s %s %ld%s\n", names[kind], path, result, more);
    if (length > 0) put(log_fd(), line, (size_t)length);
}

/* Makes the call unless it is to fail, writes it down, and returns its result with its errno. */
#define MAKE(kind, path, call, ...) \
    do { \
        char more[PATH_MAX + 64] = ""; \
        int wanted = failure(kind), error; \
        long result; \
        pass_on(); \
        snprintf(more, sizeof more, " " __VA_ARGS__); \
        errno = wanted > 0 ? wanted : errno; \
        result = wanted > 0 ? -1 : (long)(call); \
        error = errno; \
        say(kind, path, result, error, more); \
        errno = error; \
        return result; \
    } while (0)

static int open_any(const char *path, int flags, mode_t mode)
{
    if (!is_under(path)) return open_really(path, flags, mode);
    MAKE(OPEN, path, open_really(path, flags, mode), "%o %o", flags, mode);
}

static mode_t mode_of(int flags, va_list rest)
{
    return (flags & O_CREAT) != 0 || (flags & O_TMPFILE) == O_TMPFILE ? va_arg(rest, mode_t) : 0;
}

int open(const char *path, int flags, ...)
{
    va_list rest;
    mode_t mode;
    va_start(rest, flags);
    mode = mode_of(flags, rest);
    va_end(rest);
    return open_any(path, flags, mode);
}

int open64(const char *path, int flags, ...)
{
    va_list rest;
    mode_t mode;
    va_start(rest, flags);
    mode = mode_of(flags, rest);
    va_end(rest);
    return open_any(path, flags, mode);
}

int openat(int at, const char *path, int flags, ...)
{
    REAL(int, "openat", int, const char *, int, ...);
    va_list rest;
    mode_t mode;
    va_start(rest, flags);
    mode = mode_of(flags, rest);
    va_end(rest);
    if (!is_under(path)) return real(at, path, flags, mode);
    MAKE(OPEN, path, real(at, path, flags, mode), "%o %o", flags, mode);
}

ssize_t write(int fd, const void *bytes, size_t count)
{
    char room[PATH_MAX];
    if (fd == STDOUT_FILENO) {
        char more[128];
        int length = count > 64 ? 64 : (int)count;
        pass_on();
        snprintf(more, sizeof more, " %.*s", length, (const char *)bytes);
        more[strcspn(more, "\n")] = 0;
        say(WRITE, "output", (long)count, 0, more);
        return put(fd, bytes, count);
    }
    if (!is_under(path_of(fd, room))) return put(fd, bytes, count);
    MAKE(WRITE, room, put(fd, bytes, wanted == 0 ? count / 2 : count), "%zu", count);
}

ssize_t __write(int fd, const void *bytes, size_t count)
{
    return write(fd, bytes, count);
}

ssize_t pread(int fd, void *bytes, size_t count, off_t place)
{
    REAL(ssize_t, "pread", int, void *, size_t, off_t);
    char room[PATH_MAX];
    if (!is_under(path_of(fd, room))) return real(fd, bytes, count, place);
    MAKE(READ, room, real(fd, bytes, count, place), "%zu %lld", count, (long long)place);
}

ssize_t pread64(int fd, void *bytes, size_t count, off64_t place)
{
    return pread(fd, bytes, count, place);
}

int fsync(int fd)
{
    REAL(int, "fsync", int);
    char room[PATH_MAX];
    if (!is_under(path_of(fd, room))) return real(fd);
    MAKE(FSYNC, room, real(fd), "");
}

int fdatasync(int fd)
{
    REAL(int, "fdatasync", int);
    char room[PATH_MAX];
    if (!is_under(path_of(fd, room))) return real(fd);
    MAKE(FDATASYNC, room, real(fd), "");
}

int rename(const char *from, const char *to)
{
    REAL(int, "rename", const char *, const char *);
    if (!is_under(from) && !is_under(to)) return real(from, to);
    MAKE(RENAME, from, real(from, to), "%s", to);
}

int unlink(const char *path)
{
    REAL(int, "unlink", const char *);
    if (!is_under(path)) return real(path);
    MAKE(UNLINK, path, real(path), "");
}

int flock(int fd, int operation)
{
    REAL(int, "flock", int, int);
    char room[PATH_MAX];
    if (!is_under(path_of(fd, room))) return real(fd, operation);
    MAKE(FLOCK, room, real(fd, operation), "%d", operation);
}

ssize_t getdents64(int fd, void *entries, size_t count)
{
    REAL(ssize_t, "getdents64", int, void *, size_t);
    char room[PATH_MAX];
    if (!is_under(path_of(fd, room))) return real(fd, entries, count);
    MAKE(GETDENTS64, room, real(fd, entries, count), "%zu", count);
}

int mkdir(const char *path, mode_t mode)
{
    REAL(int, "mkdir", const char *, mode_t);
    if (!is_under(path)) return real(path, mode);
    MAKE(MKDIR, path, real(path, mode), "%o", mode);
}

int statx(int at, const char *path, int flags, unsigned int mask, struct statx *found)
{
    REAL(int, "statx", int, const char *, int, unsigned int, struct statx *);
    char room[PATH_MAX];
    const char *whole = path[0] != 0 ? path : path_of(at, room);
    if (!is_under(whole)) return real(at, path, flags, mask, found);
    MAKE(STATX, whole, real(at, path, flags, mask, found), "%o", flags);
}
