// Loaded before the C library, it tells in which order a program keeps bytes and sends them: in the file that ORDER
// names, a line `KIND DESCRIPTOR COUNT` and so many bytes for each call. A `send` is told before it is made, a `keep`
// (of a file) and a `sync` once they are done. Of these two the calls from the number FAILS_FROM to FAILS_TO, counted
// from 1 over both, fail as on a full disk, the writes behind half of their bytes.
#define _GNU_SOURCE
#include <dlfcn.h>
#include <errno.h>
#include <fcntl.h>
#include <stdatomic.h>
#include <stdio.h>
#include <stdlib.h>
#include <string.h>
#include <sys/socket.h>
#include <sys/types.h>
#include <unistd.h>

#define NEXT(name) ((__typeof__(&name))dlsym(RTLD_NEXT, #name))

static atomic_long calls;

static int fails(void) {
    const char *from = getenv("FAILS_FROM"), *to = getenv("FAILS_TO");
    long number = atomic_fetch_add(&calls, 1) + 1;
    return from && to && number >= atol(from) && number <= atol(to);
}

static void tell(const char *kind, int descriptor, const void *bytes, size_t count) {
    const char *path = getenv("ORDER");
    int file, before = errno;
    char *line;
    int head;
    if (!path) {
        return;
    }
    line = malloc(count + 64);
    file = open(path, O_CREAT | O_WRONLY | O_APPEND, 0600);
    if (!line || file < 0) {
        abort();
    }
    head = sprintf(line, "%s %d %zu\n", kind, descriptor, count);
    memcpy(line + head, bytes, count);
    if (NEXT(write)(file, line, head + count) != (ssize_t)(head + count)) {
        abort();
    }
    close(file);
    free(line);
    errno = before;
}

ssize_t write(int descriptor, const void *bytes, size_t count) {
    tell("send", descriptor, bytes, count);
    return NEXT(write)(descriptor, bytes, count);
}

ssize_t send(int descriptor, const void *bytes, size_t count, int flags) {
    tell("send", descriptor, bytes, count);
    return NEXT(send)(descriptor, bytes, count, flags);
}

ssize_t pwrite(int descriptor, const void *bytes, size_t count, off_t at) {
    int is_full = fails();
    ssize_t kept = NEXT(pwrite)(descriptor, bytes, is_full ? count / 2 : count, at);
    if (is_full) {
        errno = ENOSPC;
        return -1;
    }
    if (kept > 0) {
        tell("keep", descriptor, bytes, kept);
    }
    return kept;
}

ssize_t pwrite64(int descriptor, const void *bytes, size_t count, off64_t at) {
    int is_full = fails();
    ssize_t kept = NEXT(pwrite64)(descriptor, bytes, is_full ? count / 2 : count, at);
    if (is_full) {
        errno = ENOSPC;
        return -1;
    }
    if (kept > 0) {
        tell("keep", descriptor, bytes, kept);
    }
    return kept;
}

int fdatasync(int descriptor) {
    int done;
    if (fails()) {
        errno = EIO;
        return -1;
    }
    done = NEXT(fdatasync)(descriptor);
    if (done == 0) {
        tell("sync", descriptor, "", 0);
    }
    return done;
}

int fsync(int descriptor) {
    int done = NEXT(fsync)(descriptor);
    if (done == 0) {
        tell("sync", descriptor, "", 0);
    }
    return done;
}
