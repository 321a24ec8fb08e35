/* What the machine allows: one thread sends order frames that were made beforehand, a sweep of one for each venue, and reads
 * nothing but the Logon's answer. It writes what `bench wire` does: a line for each sweep, its number, and the nanoseconds of
 * the monotonic clock before its first send.
 * usage: sender PORT VENUES SWEEPS PAUSE */
#include "fix.h"

int main(int argc, char **argv) {
    if (argc != 5) fail("usage: sender PORT VENUES SWEEPS PAUSE");
    const int port = atoi(argv[1]), count = atoi(argv[2]);
    const long sweeps = atol(argv[3]), pause = atol(argv[4]) * 1000;
    int fds[MOST_VENUES];
    char text[FRAME], body[256];
    if (count < 1 || count > MOST_VENUES || sweeps < 1) fail("sender: 1 to 16 venues");
    for (int v = 0; v < count; v++) {
        const struct sockaddr_in to = loopback(port + v);
        fds[v] = socket(AF_INET, SOCK_STREAM, 0);
        if (connect(fds[v], (const struct sockaddr *)&to, sizeof to)) fail("sender: cannot connect");
        no_delay(fds[v]);
        const size_t size = frame(text, "A", "A", "B", 1, "98=0\001108=30\001");
        if (send(fds[v], text, size, 0) != (ssize_t)size || recv(fds[v], text, sizeof text, 0) <= 0)
            fail("sender: no Logon");
    }
    char(*orders)[FRAME] = malloc((size_t)sweeps * (size_t)count * FRAME);
    size_t *sizes = malloc((size_t)sweeps * (size_t)count * sizeof *sizes);
    int64_t *times = malloc((size_t)sweeps * sizeof *times);
    if (!orders || !sizes || !times) fail("sender: out of memory");
    for (long s = 0; s < sweeps; s++)
        for (int v = 0; v < count; v++) {
            snprintf(body, sizeof body,
                     "11=S%ldL%d\00118=f\00121=1\00138=100\00140=2\00144=10\00154=1\00155=IBM\00159=3\001"
                     "60=20240102-14:30:00.000\001",
                     s + 1, v + 1);
            sizes[s * count + v] = frame(orders[s * count + v], "D", "A", "B", s + 2, body);
        }
    for (long s = 0; s < sweeps; s++) {
        times[s] = now_ns();
        for (int v = 0; v < count; v++) {
            const size_t i = (size_t)s * (size_t)count + (size_t)v;
            if (send(fds[v], orders[i], sizes[i], 0) != (ssize_t)sizes[i]) fail("sender: not sent");
        }
        const int64_t left = times[s] + pause - now_ns();
        if (left > 0) nanosleep(&(struct timespec){left / 1000000000, left % 1000000000}, NULL);
    }
    for (long s = 0; s < sweeps; s++) printf("%ld %lld\n", s + 1, (long long)times[s]);
    for (int v = 0; v < count; v++) close(fds[v]);
    return 0;
}
