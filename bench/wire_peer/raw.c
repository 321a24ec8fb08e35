/* What the machine allows at the door of `dispatch run`: one thread that reads lines of sweeps, or requests over HTTP,
 * and sends for each a frame to each venue that was made beforehand; then it answers. It looks at nothing but where a line
 * or a request ends, and reads nothing of what a venue says behind its Logon.
 * With HTTP it listens on that port, and connections stay; it ends once as many sweeps came as it made frames for, as by
 * the end of its lines.
 * It says `up` on standard error once it can be asked.
 * usage: raw PORT VENUES SWEEPS [HTTP] */
#include "fix.h"

#include <poll.h>

enum { MOST_CLIENTS = 64, ROOM = 1 << 16 };

struct client {
    char text[ROOM + 1];
    size_t have;
};

static int fds[MOST_VENUES], count;
static char (*orders)[FRAME];
static size_t *sizes;
static long sweeps, sent;
static struct client clients[MOST_CLIENTS];

static void log_on(int venue, int port) {
    char text[FRAME], id[8];
    const struct sockaddr_in to = loopback(port);
    put_number(put(id, "V"), venue);
    fds[venue] = socket(AF_INET, SOCK_STREAM, 0);
    if (connect(fds[venue], (const struct sockaddr *)&to, sizeof to)) fail("raw: cannot connect");
    no_delay(fds[venue]);
    const size_t size = frame(text, "A", "DESK", id, 1, "98=0\001108=30\001");
    if (send(fds[venue], text, size, 0) != (ssize_t)size || recv(fds[venue], text, sizeof text, 0) <= 0)
        fail("raw: no Logon");
}

static void make_orders(void) {
    char body[256], id[8];
    orders = malloc((size_t)sweeps * (size_t)count * FRAME);
    sizes = malloc((size_t)sweeps * (size_t)count * sizeof *sizes);
    if (!orders || !sizes) fail("raw: out of memory");
    for (long s = 0; s < sweeps; s++)
        for (int v = 0; v < count; v++) {
            put_number(put(id, "V"), v);
            put(put_number(put(put_number(put(body, "11=S"), s + 1), "L"), v + 1),
                "\00118=f\00138=10\00140=2\00144=10\00154=1\00155=IBM\00159=3\00160=20240102-14:30:00.000\001");
            sizes[s * count + v] = frame(orders[s * count + v], "D", "DESK", id, s + 2, body);
        }
}

static void send_sweep(void) {
    if (sent == sweeps) fail("raw: more sweeps than were said");
    for (int v = 0; v < count; v++) {
        const size_t i = (size_t)sent * (size_t)count + (size_t)v;
        if (send(fds[v], orders[i], sizes[i], 0) != (ssize_t)sizes[i]) fail("raw: not sent");
    }
    sent++;
}

static void answer(int fd, int is_http) {
    char body[64], text[256], *end = put(body, is_http ? "{\"placed\":" : "placed ");
    end = put(put_number(end, sent), is_http ? ",\"shares\":" : " shares ");
    end = put(put_number(end, 10 * count), is_http ? "}" : "\n");
    const long length = end - body;
    end = text;
    if (is_http) end = put(put_number(put(end, "HTTP/1.1 201 Created\r\nContent-Length: "), length), "\r\n\r\n");
    end = put(end, body);
    if (write(fd, text, (size_t)(end - text)) != end - text) fail("raw: an answer isn't taken");
}

/* The length of what asks for a sweep at the front of a text, a line or a request; 0 where it isn't whole yet. */
static size_t asked(const char *text, size_t have, int is_http) {
    if (!is_http) {
        const char *end = memchr(text, '\n', have);
        return end ? (size_t)(end + 1 - text) : 0;
    }
    const char *body = strstr(text, "\r\n\r\n"), *said = strstr(text, "Content-Length: ");
    const size_t size = body && said ? (size_t)(body + 4 - text) + strtoul(said + 16, NULL, 10) : 0;
    return size <= have ? size : 0;
}

/* Takes what came. It says whether the client is still there. */
static int hears(struct client *c, int fd, int is_http) {
    const ssize_t got = read(fd, c->text + c->have, ROOM - c->have);
    if (got <= 0) return 0;
    c->have += (size_t)got;
    c->text[c->have] = 0;
    size_t at = 0;
    for (size_t size; (size = asked(c->text + at, c->have - at, is_http)); at += size) {
        send_sweep();
        answer(is_http ? fd : 1, is_http);
    }
    c->have -= at;
    memmove(c->text, c->text + at, c->have);
    return 1;
}

static void serve(int port) {
    const int one = 1;
    const struct sockaddr_in at = loopback(port);
    struct pollfd all[MOST_CLIENTS + 1] = {{socket(AF_INET, SOCK_STREAM, 0), POLLIN, 0}};
    int open = 1;
    setsockopt(all[0].fd, SOL_SOCKET, SO_REUSEADDR, &one, sizeof one);
    if (bind(all[0].fd, (const struct sockaddr *)&at, sizeof at) || listen(all[0].fd, 256)) fail("raw: cannot listen");
    fputs("up\n", stderr);
    while (sent < sweeps && poll(all, (nfds_t)open, -1) > 0) {
        for (int i = open - 1; i > 0; i--)
            if (all[i].revents && !hears(&clients[i - 1], all[i].fd, 1)) fail("raw: a client left");
        if (all[0].revents && open <= MOST_CLIENTS) {
            all[open] = (struct pollfd){accept(all[0].fd, NULL, NULL), POLLIN, 0};
            no_delay(all[open++].fd);
        }
    }
}

int main(int argc, char **argv) {
    if (argc != 4 && argc != 5) fail("usage: raw PORT VENUES SWEEPS [HTTP]");
    count = atoi(argv[2]);
    sweeps = atol(argv[3]);
    if (count < 1 || count > MOST_VENUES || sweeps < 1) fail("raw: 1 to 16 venues");
    for (int v = 0; v < count; v++) log_on(v, atoi(argv[1]) + v);
    make_orders();
    if (argc == 5) {
        serve(atoi(argv[4]));
    } else {
        fputs("up\n", stderr);
        while (hears(&clients[0], 0, 0)) {}
    }
    for (int v = 0; v < count; v++) {
        char rest[FRAME];
        shutdown(fds[v], SHUT_WR);
        while (recv(fds[v], rest, sizeof rest, 0) > 0) {}
    }
    return 0;
}
