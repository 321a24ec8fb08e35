/* The exchanges of the benches: a raw end of a session on each of so many ports. It answers a Logon, a TestRequest and a
 * Logout, and writes down when each order came: its ClOrdID, and the nanoseconds of the monotonic clock when the read that
 * brought its last byte came back. It checks no message's number, but that each venue's orders are of sweeps whose
 * numbers rise. It ends once each venue has hung up, and says then how many orders came, and when the last did.
 * REPORTS, 0 or 3, is how many reports an order is answered by: New, a Trade of 6 shares of its 10, and Canceled. Orders
 * of sweeps before FROM are counted and not written down.
 * usage: sink PORT VENUES FILE [REPORTS [FROM]] */
#include "fix.h"

#include <sys/epoll.h>

enum { ROOM = 1 << 20, ID = 24, TRADED = 6 };

struct venue {
    int listener, fd;
    long number, orders, sweep;
    char me[32], peer[32], buffer[ROOM], *out;
    size_t have, says, room;
    int64_t at;
};

struct arrival {
    char id[ID];
    int64_t at;
};

static struct venue venues[MOST_VENUES];
static struct arrival *arrivals;
static size_t came, room;
static long reports, from_sweep;
static int64_t last;

/* The length of the frame at the front, or 0 where it isn't whole yet. */
static size_t whole(const char *from, const char *end) {
    const char *body = from + 12, *after;
    if (end - from < 20 || memcmp(from, "8=FIX.4.4\0019=", 12)) return 0;
    const long length = strtol(body, NULL, 10);
    after = memchr(body, 1, (size_t)(end - body));
    if (!after || end - after < length + 8) return 0;
    return (size_t)(after + 1 + length + 7 - from);
}

/* The value of a field, cut to the room that is given. */
static void value(const char *from, size_t size, const char *tag, char *to, size_t most) {
    char wanted[16];
    const size_t length = (size_t)(put(put(put(wanted, "\001"), tag), "=") - wanted);
    const char *at = memmem(from, size, wanted, length);
    size_t n = 0;
    if (at)
        for (at += length; *at != 1 && n + 1 < most; at++) to[n++] = *at;
    to[n] = 0;
}

static void say(struct venue *v, const char *kind, const char *body) {
    if (v->says + FRAME > v->room && !(v->out = realloc(v->out, v->room = 2 * v->room + ROOM))) fail("sink: out of memory");
    v->says += frame(v->out + v->says, kind, v->me, v->peer, ++v->number, body);
}

/* A report on an order: its ExecType, its OrdStatus, what was traded just now, what is open, and what was traded in all. */
static void report(struct venue *v, const char *type, const char *status, const char *order, const char *traded, long open,
                   long filled) {
    char body[FRAME], *at = put(put_number(put(body, "37=O"), v->orders), "\00117=E");
    at = put(put(put_number(at, v->orders), type), "\001150=");
    at = put(put(put(put(put(at, type), "\00139="), status), order), traded);
    put(put_number(put(put_number(put(at, "151="), open), "\00114="), filled), "\0016=0\001");
    say(v, "8", body);
}

static void answer_order(struct venue *v, const char *from, size_t size, const char *id) {
    char symbol[16], side[4], price[32], shares[16], order[160], traded[64];
    value(from, size, "55", symbol, sizeof symbol);
    value(from, size, "54", side, sizeof side);
    value(from, size, "44", price, sizeof price);
    value(from, size, "38", shares, sizeof shares);
    const long whole_order = atol(shares);
    if (whole_order <= TRADED) fail("sink: an order of too few shares");
    put(put(put(put(put(put(put(order, "\00111="), id), "\00155="), symbol), "\00154="), side), "\001");
    put(put(put(put_number(put(traded, "32="), TRADED), "\00131="), price), "\001");
    report(v, "0", "0", order, "", whole_order, 0);
    report(v, "F", "1", order, traded, whole_order - TRADED, TRADED);
    report(v, "4", "4", order, "", 0, TRADED);
}

static void take_order(struct venue *v, const char *from, size_t size) {
    char id[ID];
    value(from, size, "11", id, ID);
    const long sweep = atol(id + 1);
    if (sweep <= v->sweep) fail("sink: an order came twice, or out of order");
    v->sweep = sweep;
    v->orders++;
    last = v->at;
    if (sweep >= from_sweep) {
        if (came == room && !(arrivals = realloc(arrivals, (room = room ? 2 * room : 1 << 16) * sizeof *arrivals)))
            fail("sink: out of memory");
        memcpy(arrivals[came].id, id, ID);
        arrivals[came++].at = v->at;
    }
    if (reports) answer_order(v, from, size, id);
}

static void take(struct venue *v, const char *from, size_t size) {
    char kind[4], text[128], body[160];
    value(from, size, "35", kind, sizeof kind);
    if (!strcmp(kind, "D")) {
        take_order(v, from, size);
    } else if (!strcmp(kind, "A")) {
        value(from, size, "56", v->me, sizeof v->me);
        value(from, size, "49", v->peer, sizeof v->peer);
        value(from, size, "108", text, sizeof text);
        put(put(put(body, "98=0\001108="), text), "\001");
        say(v, "A", body);
    } else if (!strcmp(kind, "1")) {
        value(from, size, "112", text, sizeof text);
        put(put(put(body, "112="), text), "\001");
        say(v, "0", body);
    } else if (!strcmp(kind, "5")) {
        say(v, "5", "");
    } else if (strcmp(kind, "0")) {
        fail("sink: a message of another kind");
    }
}

/* Reads what came, and notes when. It says whether the venue is still there. */
static int reads(struct venue *v) {
    const ssize_t got = recv(v->fd, v->buffer + v->have, ROOM - v->have, MSG_DONTWAIT);
    v->at = now_ns();
    if (got < 0 && (errno == EAGAIN || errno == EINTR)) return 1;
    if (got > 0) v->have += (size_t)got;
    return got > 0;
}

/* Sends what the socket takes of what is said. What it doesn't take waits: an exchange goes on reading meanwhile. */
static void sends(struct venue *v) {
    const ssize_t n = v->says ? send(v->fd, v->out, v->says, MSG_NOSIGNAL | MSG_DONTWAIT) : 0;
    if (n < 0 && errno == EAGAIN) return;
    if (n < 0) fail("sink: no answer taken");
    v->says -= (size_t)n;
    memmove(v->out, v->out + n, v->says);
}

/* Takes the messages that were read, and answers them. */
static void answers(struct venue *v) {
    const char *from = v->buffer, *end = from + v->have;
    for (size_t size; (size = whole(from, end)); from += size) take(v, from, size);
    v->have = (size_t)(end - from);
    memmove(v->buffer, from, v->have);
    sends(v);
}

static int listening(int poll, int port, int venue) {
    const int one = 1;
    const struct sockaddr_in at = loopback(port);
    struct epoll_event e = {EPOLLIN, {.u64 = (uint64_t)venue << 1}};
    const int fd = socket(AF_INET, SOCK_STREAM, 0);
    setsockopt(fd, SOL_SOCKET, SO_REUSEADDR, &one, sizeof one);
    if (bind(fd, (const struct sockaddr *)&at, sizeof at) || listen(fd, 4)) fail("sink: cannot listen");
    epoll_ctl(poll, EPOLL_CTL_ADD, fd, &e);
    return fd;
}

static void accepted(int poll, struct venue *v, uint64_t tag) {
    struct epoll_event e = {EPOLLIN, {.u64 = tag | 1}};
    if (v->fd >= 0) fail("sink: a venue came twice");
    v->fd = accept(v->listener, NULL, NULL);
    no_delay(v->fd);
    epoll_ctl(poll, EPOLL_CTL_ADD, v->fd, &e);
}

/* Serves until each venue has come and gone. What is there at all venues is read before any of it is answered: so the time
 * of an order isn't that of the answer to another. */
static void serve(int poll, int count) {
    int open = 0, opened = 0, is_full = 0;
    while (opened < count || open) {
        struct epoll_event events[2 * MOST_VENUES];
        struct venue *ready[2 * MOST_VENUES];
        int some = 0;
        const int n = epoll_wait(poll, events, 2 * MOST_VENUES, is_full ? 1 : -1);
        for (int v = is_full = 0; v < count; v++)
            if (venues[v].says && venues[v].fd >= 0) sends(&venues[v]);
        for (int i = 0; i < n; i++) {
            struct venue *v = &venues[events[i].data.u64 >> 1];
            if (!(events[i].data.u64 & 1)) {
                accepted(poll, v, events[i].data.u64);
                open++, opened++;
            } else if (v->fd >= 0 && reads(v)) {
                ready[some++] = v;
            } else if (v->fd >= 0) {
                close(v->fd);
                v->fd = -1;
                open--;
            }
        }
        for (int i = 0; i < some; i++) answers(ready[i]);
        for (int v = 0; v < count; v++) is_full |= venues[v].fd >= 0 && venues[v].says > 0;
    }
}

int main(int argc, char **argv) {
    if (argc < 4 || argc > 6) fail("usage: sink PORT VENUES FILE [REPORTS [FROM]]");
    const int port = atoi(argv[1]), count = atoi(argv[2]), poll = epoll_create1(0);
    reports = argc > 4 ? atol(argv[4]) : 0;
    from_sweep = argc > 5 ? atol(argv[5]) : 0;
    if (count < 1 || count > MOST_VENUES) fail("sink: 1 to 16 venues");
    for (int v = 0; v < count; v++) {
        venues[v].fd = -1;
        venues[v].listener = listening(poll, port + v, v);
    }
    puts("listening");
    fflush(stdout);
    serve(poll, count);
    FILE *file = fopen(argv[3], "w");
    if (!file) fail("sink: cannot write");
    for (size_t i = 0; i < came; i++) fprintf(file, "%s %lld\n", arrivals[i].id, (long long)arrivals[i].at);
    if (fclose(file)) fail("sink: cannot write");
    long orders = 0;
    for (int v = 0; v < count; v++) orders += venues[v].orders;
    printf("orders %ld last %lld\n", orders, (long long)last);
    return 0;
}
