/* Loaded before the C library: lets calls of one kind fail, and grants all others.
   FAIL_KIND is read, write, open or accept. The calls of that kind are counted from 1. FAIL_AT is the first one that fails, FAIL_TIMES how
   many fail in a row (1 where it is not there), and FAIL_ERRNO the error number; with 0 a write tells that it took nothing.
   FAIL_ON limits them to calls on sockets or regular files (socket, file), or to one descriptor (its number). Standard error never counts.
   ONE_BYTE lets each read and write that counts move one byte. COUNT_TO names a file that gets the number of calls that counted. */
#define _GNU_SOURCE
#include <dlfcn.h>
#include <errno.h>
#include <fcntl.h>
#include <stdarg.h>
#include <stdlib.h>
#include <string.h>
#include <sys/socket.h>
#include <sys/stat.h>
#include <sys/uio.h>
#include <unistd.h>

#include "count.h"

enum { NONE, READ, WRITE, OPEN, ACCEPT };
static const char *const kinds[] = {"", "read", "write", "open", "accept"};

static long first, last;
static int kind, number, one_byte, only_descriptor = -1;
static mode_t only_type;

static long number_of(const char *name, long otherwise) {
    const char *text = getenv(name);
    return text && *text ? atol(text) : otherwise;
}

__attribute__((constructor)) static void begin(void) {
    const char *text = getenv("FAIL_KIND"), *on = getenv("FAIL_ON");
    for (kind = ACCEPT; kind > NONE && !(text && !strcmp(text, kinds[kind])); kind--) {
    }
    first = number_of("FAIL_AT", 0);
    last = first + number_of("FAIL_TIMES", 1) - 1;
    number = (int)number_of("FAIL_ERRNO", EIO);
    one_byte = number_of("ONE_BYTE", 0) != 0;
    if (on && *on) {
        only_type = !strcmp(on, "socket") ? S_IFSOCK : !strcmp(on, "file") ? S_IFREG : 0;
        only_descriptor = only_type ? -1 : atoi(on);
    }
}

static int counts(int of, int descriptor) {
    struct stat at;
    if (of != kind || descriptor == STDERR_FILENO) {
        return 0;
    }
    if (only_descriptor >= 0) {
        return descriptor == only_descriptor;
    }
    return !only_type || (fstat(descriptor, &at) == 0 && (at.st_mode & S_IFMT) == only_type);
}

/* Whether this call, which counts, fails. */
static int is_failing(void) {
    long at = __atomic_add_fetch(&count, 1, __ATOMIC_SEQ_CST);
    return first && first <= at && at <= last;
}

static long fails(void) {
    errno = number;
    return number ? -1 : 0;
}

#define NEXT(result, name, ...)                                                       \
    static result (*next)(__VA_ARGS__);                                               \
    if (!next) {                                                                      \
        next = (result(*)(__VA_ARGS__))dlsym(RTLD_NEXT, name);                        \
    }

#define MOVES(of, descriptor, size)                                                   \
    if (counts(of, descriptor)) {                                                     \
        if (is_failing()) {                                                           \
            return fails();                                                           \
        }                                                                             \
        size = one_byte && size ? 1 : size;                                           \
    }

ssize_t read(int descriptor, void *into, size_t size) {
    NEXT(ssize_t, "read", int, void *, size_t)
    MOVES(READ, descriptor, size)
    return next(descriptor, into, size);
}

ssize_t recv(int descriptor, void *into, size_t size, int flags) {
    NEXT(ssize_t, "recv", int, void *, size_t, int)
    MOVES(READ, descriptor, size)
    return next(descriptor, into, size, flags);
}

ssize_t recvfrom(int descriptor, void *into, size_t size, int flags, struct sockaddr *from, socklen_t *length) {
    NEXT(ssize_t, "recvfrom", int, void *, size_t, int, struct sockaddr *, socklen_t *)
    MOVES(READ, descriptor, size)
    return next(descriptor, into, size, flags, from, length);
}

ssize_t write(int descriptor, const void *from, size_t size) {
    NEXT(ssize_t, "write", int, const void *, size_t)
    MOVES(WRITE, descriptor, size)
    return next(descriptor, from, size);
}

ssize_t send(int descriptor, const void *from, size_t size, int flags) {
    NEXT(ssize_t, "send", int, const void *, size_t, int)
    MOVES(WRITE, descriptor, size)
    return next(descriptor, from, size, flags);
}

ssize_t sendto(int descriptor, const void *from, size_t size, int flags, const struct sockaddr *to, socklen_t length) {
    NEXT(ssize_t, "sendto", int, const void *, size_t, int, const struct sockaddr *, socklen_t)
    MOVES(WRITE, descriptor, size)
    return next(descriptor, from, size, flags, to, length);
}

/* Where one byte moves in a call, these move all: a message of several pieces has no first byte that is its own. */
ssize_t writev(int descriptor, const struct iovec *from, int pieces) {
    size_t size = 1;
    NEXT(ssize_t, "writev", int, const struct iovec *, int)
    MOVES(WRITE, descriptor, size)
    return next(descriptor, from, pieces);
}

ssize_t readv(int descriptor, const struct iovec *into, int pieces) {
    size_t size = 1;
    NEXT(ssize_t, "readv", int, const struct iovec *, int)
    MOVES(READ, descriptor, size)
    return next(descriptor, into, pieces);
}

ssize_t sendmsg(int descriptor, const struct msghdr *message, int flags) {
    size_t size = 1;
    NEXT(ssize_t, "sendmsg", int, const struct msghdr *, int)
    MOVES(WRITE, descriptor, size)
    return next(descriptor, message, flags);
}

ssize_t recvmsg(int descriptor, struct msghdr *message, int flags) {
    size_t size = 1;
    NEXT(ssize_t, "recvmsg", int, struct msghdr *, int)
    MOVES(READ, descriptor, size)
    return next(descriptor, message, flags);
}

#define OPENS(name)                                                                   \
    int name(const char *path, int flags, ...) {                                      \
        va_list rest;                                                                 \
        va_start(rest, flags);                                                        \
        mode_t mode = flags & (O_CREAT | O_TMPFILE) ? va_arg(rest, mode_t) : 0;       \
        va_end(rest);                                                                 \
        NEXT(int, #name, const char *, int, ...)                                      \
        if (kind == OPEN && is_failing()) {                                           \
            return (int)fails();                                                      \
        }                                                                             \
        return next(path, flags, mode);                                               \
    }

OPENS(open)
OPENS(open64)

#define OPENS_AT(name)                                                                \
    int name(int folder, const char *path, int flags, ...) {                          \
        va_list rest;                                                                 \
        va_start(rest, flags);                                                        \
        mode_t mode = flags & (O_CREAT | O_TMPFILE) ? va_arg(rest, mode_t) : 0;       \
        va_end(rest);                                                                 \
        NEXT(int, #name, int, const char *, int, ...)                                 \
        if (kind == OPEN && is_failing()) {                                           \
            return (int)fails();                                                      \
        }                                                                             \
        return next(folder, path, flags, mode);                                       \
    }

OPENS_AT(openat)
OPENS_AT(openat64)

int accept(int descriptor, struct sockaddr *from, socklen_t *length) {
    NEXT(int, "accept", int, struct sockaddr *, socklen_t *)
    if (counts(ACCEPT, descriptor) && is_failing()) {
        return (int)fails();
    }
    return next(descriptor, from, length);
}

int accept4(int descriptor, struct sockaddr *from, socklen_t *length, int flags) {
    NEXT(int, "accept4", int, struct sockaddr *, socklen_t *, int)
    if (counts(ACCEPT, descriptor) && is_failing()) {
        return (int)fails();
    }
    return next(descriptor, from, length, flags);
}
