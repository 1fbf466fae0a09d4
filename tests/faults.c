// Preloaded into the station program: makes some of its reads and writes fail, or move few bytes, as the environment says.
//   FAULT_CALL  read (any descriptor) or write (standard output only)
//   FAULT_KIND  eintr, eio, eagain: the call fails; one: it moves at most one byte; zero: it moves none and says so
//   FAULT_FROM  the first call concerned, from 1 on
//   FAULT_TIMES how many calls are concerned
//   FAULT_ZERO  a later call that moves none and says so, from 1 on
#define _GNU_SOURCE
#include <dlfcn.h>
#include <errno.h>
#include <stdlib.h>
#include <string.h>
#include <unistd.h>

static int is(const char *name, const char *value) {
    const char *found = getenv(name);
    return found && strcmp(found, value) == 0;
}

static long number(const char *name) {
    const char *found = getenv(name);
    return found ? atol(found) : 0;
}

// Whether this call is concerned: 0 no; 1 it fails, errno is set; 2 it moves at most one byte; 3 it moves none.
static int fault(const char *call, long *calls) {
    if (!is("FAULT_CALL", call))
        return 0;
    *calls += 1;
    if (*calls == number("FAULT_ZERO"))
        return 3;
    if (*calls < number("FAULT_FROM") || number("FAULT_FROM") + number("FAULT_TIMES") <= *calls)
        return 0;
    if (is("FAULT_KIND", "one"))
        return 2;
    if (is("FAULT_KIND", "zero"))
        return 3;
    errno = is("FAULT_KIND", "eintr") ? EINTR : is("FAULT_KIND", "eagain") ? EAGAIN : EIO;
    return 1;
}

ssize_t read(int fd, void *bytes, size_t size) {
    static ssize_t (*real)(int, void *, size_t);
    static long calls;
    if (!real)
        *(void **)&real = dlsym(RTLD_NEXT, "read");
    switch (fault("read", &calls)) {
    case 1:
        return -1;
    case 2:
        return real(fd, bytes, size ? 1 : 0);
    case 3:
        return 0;
    default:
        return real(fd, bytes, size);
    }
}

ssize_t write(int fd, const void *bytes, size_t size) {
    static ssize_t (*real)(int, const void *, size_t);
    static long calls;
    if (!real)
        *(void **)&real = dlsym(RTLD_NEXT, "write");
    switch (fd == STDOUT_FILENO ? fault("write", &calls) : 0) {
    case 1:
        return -1;
    case 2:
        return real(fd, bytes, size ? 1 : 0);
    case 3:
        return 0;
    default:
        return real(fd, bytes, size);
    }
}
