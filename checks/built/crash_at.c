/* Ends the process, as SIGKILL does, before the call of this number that writes, syncs or sends, counted over all threads
 * from 1. CRASH_AT has the number, and none ends it where it is 0 or absent. */
#define _GNU_SOURCE
#include <dlfcn.h>
#include <signal.h>
#include <stdatomic.h>
#include <stdlib.h>
#include <sys/socket.h>
#include <sys/types.h>
#include <sys/uio.h>
#include <unistd.h>

static atomic_long calls;
static long crash_at = -1;

static void count(void)
{
    if (crash_at < 0) {
        const char *text = getenv("CRASH_AT");
        crash_at = text ? atol(text) : 0;
    }
    if (crash_at > 0 && atomic_fetch_add(&calls, 1) + 1 == crash_at)
        kill(getpid(), SIGKILL);
}

#define NEXT(name) ((__typeof__(&name))dlsym(RTLD_NEXT, #name))

ssize_t pwrite(int fd, const void *bytes, size_t size, off_t at)
{
    count();
    return NEXT(pwrite)(fd, bytes, size, at);
}

ssize_t pwrite64(int fd, const void *bytes, size_t size, off64_t at)
{
    count();
    return NEXT(pwrite64)(fd, bytes, size, at);
}

ssize_t write(int fd, const void *bytes, size_t size)
{
    count();
    return NEXT(write)(fd, bytes, size);
}

ssize_t send(int fd, const void *bytes, size_t size, int flags)
{
    count();
    return NEXT(send)(fd, bytes, size, flags);
}

ssize_t sendto(int fd, const void *bytes, size_t size, int flags, const struct sockaddr *to, socklen_t length)
{
    count();
    return NEXT(sendto)(fd, bytes, size, flags, to, length);
}

int fdatasync(int fd)
{
    count();
    return NEXT(fdatasync)(fd);
}

int fsync(int fd)
{
    count();
    return NEXT(fsync)(fd);
}
