/* What the programs that stand beside `dispatch` in a bench share: frames, the clock, and loopback sockets. */
#include <arpa/inet.h>
#include <errno.h>
#include <netinet/in.h>
#include <netinet/tcp.h>
#include <stdint.h>
#include <stdio.h>
#include <stdlib.h>
#include <string.h>
#include <sys/socket.h>
#include <time.h>
#include <unistd.h>

enum { MOST_VENUES = 16, FRAME = 512 };

static inline int64_t now_ns(void) {
    struct timespec t;
    clock_gettime(CLOCK_MONOTONIC, &t);
    return t.tv_sec * 1000000000LL + t.tv_nsec;
}

static inline void fail(const char *why) {
    fprintf(stderr, "%s\n", why);
    exit(1);
}

static inline void no_delay(int fd) {
    const int one = 1;
    setsockopt(fd, IPPROTO_TCP, TCP_NODELAY, &one, sizeof one);
}

static inline struct sockaddr_in loopback(int port) {
    struct sockaddr_in at = {0};
    at.sin_family = AF_INET;
    at.sin_port = htons((uint16_t)port);
    at.sin_addr.s_addr = htonl(INADDR_LOOPBACK);
    return at;
}

/* Puts a text, or a number that isn't negative, at `to`: where it ends. */
static inline char *put(char *to, const char *text) { return stpcpy(to, text); }

static inline char *put_number(char *to, long number) {
    char digits[24], *at = digits + sizeof digits;
    *--at = 0;
    do *--at = (char)('0' + number % 10);
    while (number /= 10);
    return put(to, at);
}

/* The frame of a message of this kind and number, `body` behind its header; its length. */
static inline size_t frame(char *to, const char *kind, const char *me, const char *peer, long number, const char *body) {
    static char stamp[40];
    static time_t stamped;
    char inner[FRAME], *at = inner, *end = to;
    const time_t second = time(NULL);
    if (second != stamped) strftime(stamp, sizeof stamp, "%Y%m%d-%H:%M:%S.000", gmtime(&second));
    stamped = second;
    at = put(put(put(put(put(put(at, "35="), kind), "\00149="), me), "\00156="), peer);
    at = put(put(put(put(put_number(put(at, "\00134="), number), "\00152="), stamp), "\001"), body);
    end = put(put(put_number(put(end, "8=FIX.4.4\0019="), at - inner), "\001"), inner);
    unsigned sum = 0;
    for (const char *it = to; it < end; it++) sum += (unsigned char)*it;
    end = put(end, "10=");
    *end++ = (char)('0' + sum % 256 / 100);
    *end++ = (char)('0' + sum % 256 / 10 % 10);
    *end++ = (char)('0' + sum % 256 % 10);
    return (size_t)(put(end, "\001") - to);
}
