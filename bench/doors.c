// Hands sweeps in over many connections, each by a thread of its own, and says how many were placed a second and how
// long an answer took. Each connection's sweeps are of one leg, for one of the venues V0, V1 ..
//
//     doors http|lines PORT CONNECTIONS SWEEPS WINDOW VENUES
//
// WINDOW is how many sweeps of a connection may wait for their answers at once. What is printed: sweeps placed a
// second, and the microseconds to an answer, p50 and p99.
#define _GNU_SOURCE
#include <arpa/inet.h>
#include <netinet/tcp.h>
#include <pthread.h>
#include <stdio.h>
#include <stdlib.h>
#include <string.h>
#include <sys/socket.h>
#include <time.h>
#include <unistd.h>

enum { ROOM = 1 << 16 };

static int port, sweeps, window, venues, is_http;
static pthread_barrier_t all;

struct client {
    pthread_t thread;
    int place;
    long *took;
    char in[ROOM];
};

static void fail(const char *what) {
    fprintf(stderr, "doors: %s\n", what);
    exit(1);
}

static long now(void) {
    struct timespec t;
    clock_gettime(CLOCK_MONOTONIC, &t);
    return t.tv_sec * 1000000000L + t.tv_nsec;
}

static int request_of(const struct client *it, char *text) {
    char body[256];
    int place = it->place % venues;
    if (!is_http)
        return sprintf(text, "sweep V%d IBM buy 100 10.25\n", place);
    int length = sprintf(body,
        "{\"legs\":[{\"venue\":\"V%d\",\"symbol\":\"IBM\",\"side\":\"buy\",\"shares\":100,\"price\":\"10.25\"}]}", place);
    return sprintf(text, "POST /api/sweeps HTTP/1.1\r\nHost: 127.0.0.1:%d\r\nContent-Type: application/json\r\n"
        "Content-Length: %d\r\n\r\n%s", port, length, body);
}

// The end of the first whole answer, or none. Anything but a sweep that was placed ends the run.
static char *answer_end(char *from, char *to) {
    *to = 0;
    if (!is_http) {
        char *end = memchr(from, '\n', to - from);
        if (end && strncmp(from, "placed ", 7) != 0) {
            *end = 0;
            fail(from);
        }
        return end ? end + 1 : NULL;
    }
    char *body = strstr(from, "\r\n\r\n");
    if (!body)
        return NULL;
    char *length = strcasestr(from, "content-length:");
    if (!length || length > body)
        fail("no length");
    char *end = body + 4 + atoi(length + 15);
    if (end > to)
        return NULL;
    if (strncmp(from, "HTTP/1.1 201", 12) != 0) {
        *end = 0;
        fail(from);
    }
    return end;
}

static void send_all(int fd, const char *bytes, int count) {
    while (count > 0) {
        int sent = send(fd, bytes, count, 0);
        if (sent <= 0)
            fail("nothing more is taken");
        bytes += sent;
        count -= sent;
    }
}

static void *serve(void *of) {
    struct client *it = of;
    struct sockaddr_in at = {.sin_family = AF_INET, .sin_port = htons(port), .sin_addr.s_addr = htonl(INADDR_LOOPBACK)};
    int fd = socket(AF_INET, SOCK_STREAM, 0), one = 1;
    if (connect(fd, (struct sockaddr *)&at, sizeof at) != 0)
        fail("can't connect");
    setsockopt(fd, IPPROTO_TCP, TCP_NODELAY, &one, sizeof one);
    char request[1024], *batch = malloc(window * sizeof request);
    int size = request_of(it, request);
    for (int i = 0; i < window; i++)
        memcpy(batch + i * size, request, size);
    pthread_barrier_wait(&all);
    int sent = 0, answered = 0, have = 0;
    while (answered < sweeps) {
        int more = window - (sent - answered);
        if (more > sweeps - sent)
            more = sweeps - sent;
        long then = now();
        for (int i = 0; i < more; i++)
            it->took[sent + i] = then;
        sent += more;
        if (more > 0)
            send_all(fd, batch, more * size);
        int got = recv(fd, it->in + have, ROOM - 1 - have, 0);
        if (got <= 0)
            fail("the connection ended");
        have += got;
        char *from = it->in, *to = it->in + have, *end;
        then = now();
        while (from < to && (end = answer_end(from, to))) {
            it->took[answered] = then - it->took[answered];
            answered++;
            from = end;
        }
        have = to - from;
        memmove(it->in, from, have);
    }
    close(fd);
    return NULL;
}

static int by_size(const void *a, const void *b) {
    long x = *(const long *)a, y = *(const long *)b;
    return (x > y) - (x < y);
}

int main(int count, char **words) {
    if (count != 7)
        fail("doors http|lines PORT CONNECTIONS SWEEPS WINDOW VENUES");
    is_http = strcmp(words[1], "http") == 0;
    port = atoi(words[2]);
    int connections = atoi(words[3]);
    sweeps = atoi(words[4]);
    window = atoi(words[5]);
    venues = atoi(words[6]);
    long total = (long)connections * sweeps, *took = calloc(total, sizeof *took);
    struct client *clients = calloc(connections, sizeof *clients);
    pthread_barrier_init(&all, NULL, connections + 1);
    for (int i = 0; i < connections; i++) {
        clients[i].place = i;
        clients[i].took = took + (long)i * sweeps;
        pthread_create(&clients[i].thread, NULL, serve, &clients[i]);
    }
    pthread_barrier_wait(&all);
    long begun = now();
    for (int i = 0; i < connections; i++)
        pthread_join(clients[i].thread, NULL);
    double seconds = (now() - begun) / 1e9;
    qsort(took, total, sizeof *took, by_size);
    printf("%.0f %.0f %.0f\n", total / seconds, took[total / 2] / 1e3, took[total * 99 / 100] / 1e3);
    return 0;
}
