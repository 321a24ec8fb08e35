/* Programs at the door of `dispatch run` over HTTP: so many clients hand in sweeps of 10 shares for each of so many
 * venues, each of them one sweep behind the other, over one connection for as long as the other side keeps it. Each has a
 * beat of PAUSE microseconds, and the beats are spread; 0 is as fast as it is answered. A sweep that is refused, since a
 * venue has too many orders that wait, is handed in again.
 * For each sweep FILE gets a line: its number, and the nanoseconds of the monotonic clock before its client connected, or
 * sent where it was connected. On standard error it says what became of all, and when it began.
 * usage: ask PORT VENUES SWEEPS CLIENTS PAUSE FILE */
#include "fix.h"

#include <pthread.h>
#include <stdatomic.h>
#include <sys/prctl.h>

enum { MOST_CLIENTS = 256, ROOM = 4096, REST = 100 };

struct asked {
    long number;
    int64_t from;
};

static int port;
static long sweeps;
static int64_t pause_ns;
static char request[8192];
static size_t length;
static atomic_long begun, refused, connections;
static struct asked *all;

static int connected(void) {
    const struct sockaddr_in to = loopback(port);
    const int fd = socket(AF_INET, SOCK_STREAM, 0);
    if (connect(fd, (const struct sockaddr *)&to, sizeof to)) fail("ask: cannot connect");
    no_delay(fd);
    connections++;
    return fd;
}

/* Whether a whole answer is there; how its head ends is left in `head`. */
static int is_whole(const char *text, size_t have, const char **head) {
    *head = strstr(text, "\r\n\r\n");
    const char *said = strcasestr(text, "content-length:");
    return *head && said && said < *head && have >= (size_t)(*head + 4 - text) + strtoul(said + 15, NULL, 10);
}

/* Asks once, and gives the sweep's number, or 0 where it was refused. The connection is closed where the other side
 * closes it, or says so. */
static long ask(int *fd) {
    char text[ROOM + 1] = "";
    const char *head = NULL;
    size_t have = 0;
    if (*fd < 0) *fd = connected();
    if (send(*fd, request, length, MSG_NOSIGNAL) != (ssize_t)length) fail("ask: a request isn't taken");
    while (!is_whole(text, have, &head)) {
        const ssize_t got = recv(*fd, text + have, ROOM - have, 0);
        if (got <= 0) fail("ask: no whole answer");
        text[have += (size_t)got] = 0;
    }
    const char *placed = strstr(head, "\"placed\":"), *closes = strcasestr(text, "connection: close");
    if (closes && closes < head) {
        close(*fd);
        *fd = -1;
    }
    if (!placed && !strstr(head, "\"refused\":\"R05\"")) fail(text);
    return placed ? atol(placed + 9) : 0;
}

static void *client(void *begins) {
    int fd = -1;
    int64_t due = *(int64_t *)begins;
    prctl(PR_SET_TIMERSLACK, 1);
    for (long i; (i = begun++) < sweeps; due += pause_ns) {
        const struct timespec at = {due / 1000000000, due % 1000000000};
        while (pause_ns && clock_nanosleep(CLOCK_MONOTONIC, TIMER_ABSTIME, &at, NULL)) {}
        for (all[i].from = now_ns(); !(all[i].number = ask(&fd)); all[i].from = now_ns()) {
            refused++;
            usleep(REST);
        }
    }
    return NULL;
}

static void make_request(int venues) {
    char body[4096], *at = put(body, "{\"legs\":[");
    for (int v = 0; v < venues; v++) {
        at = put_number(put(at, v ? ",{\"venue\":\"V" : "{\"venue\":\"V"), v);
        at = put(at, "\",\"symbol\":\"IBM\",\"side\":\"buy\",\"shares\":10,\"price\":\"10\"}");
    }
    const long size = put(at, "]}") - body;
    at = put(put_number(put(request, "POST /api/sweeps HTTP/1.1\r\nHost: 127.0.0.1:"), port), "\r\n");
    at = put(put_number(put(at, "Content-Type: application/json\r\nContent-Length: "), size), "\r\n\r\n");
    length = (size_t)(put(at, body) - request);
}

int main(int argc, char **argv) {
    if (argc != 7) fail("usage: ask PORT VENUES SWEEPS CLIENTS PAUSE FILE");
    const int venues = atoi(argv[2]), clients = atoi(argv[4]);
    pthread_t threads[MOST_CLIENTS];
    int64_t begins[MOST_CLIENTS];
    port = atoi(argv[1]);
    sweeps = atol(argv[3]);
    pause_ns = atol(argv[5]) * 1000;
    if (venues < 1 || venues > MOST_VENUES || clients < 1 || clients > MOST_CLIENTS) fail("ask: too many");
    make_request(venues);
    if (!(all = calloc((size_t)sweeps, sizeof *all))) fail("ask: out of memory");
    const int64_t from = now_ns();
    for (int i = 0; i < clients; i++) {
        begins[i] = from + i * pause_ns / clients;
        if (pthread_create(&threads[i], NULL, client, &begins[i])) fail("ask: no thread");
    }
    for (int i = 0; i < clients; i++) pthread_join(threads[i], NULL);
    FILE *file = fopen(argv[6], "w");
    if (!file) fail("ask: cannot write");
    for (long i = 0; i < sweeps; i++)
        fprintf(file, "%ld %lld\n", all[i].number, (long long)all[i].from);
    fprintf(stderr, "beat %ld placed %ld refused %ld connections %ld from %lld\n", sweeps, sweeps, (long)refused,
            (long)connections, (long long)from);
    return fclose(file) != 0;
}
