/* A desk's hand at the door of `dispatch run`: it writes sweeps of 10 shares for each of so many venues to its standard
 * output, a line each, and reads what they are answered on its standard input. First come BEFORE sweeps as fast as they
 * are taken, at most 64 of them unanswered, where one that is refused is handed in again; then, a second later, SWEEPS
 * at a beat of PAUSE microseconds, each once.
 * For each of the latter that is placed FILE gets a line: its number, and the nanoseconds of the monotonic clock right
 * before its line was written. On standard error it says what became of both, and when each began.
 * usage: feed VENUES BEFORE SWEEPS PAUSE FILE */
#include "fix.h"

#include <poll.h>
#include <sys/prctl.h>

enum { WINDOW = 64, REST = 200, SETTLE = 1000000, MOST_WAIT = 60000, ROOM = 1 << 16 };

static char line[2048];
static size_t length;
static long answered, placed, refused, answers_of_beat;
static int64_t *handed;
static FILE *file;

static void writes(void) {
    for (size_t done = 0; done < length;) {
        const ssize_t n = write(1, line + done, length - done);
        if (n <= 0) fail("feed: a line isn't taken");
        done += (size_t)n;
    }
}

static void take(const char *answer) {
    answered++;
    if (!strncmp(answer, "placed ", 7)) placed++;
    else if (!strncmp(answer, "refused R05", 11)) refused++;
    else fail(answer);
    if (!handed) return;
    if (*answer == 'p') fprintf(file, "%ld %lld\n", atol(answer + 7), (long long)handed[answers_of_beat]);
    answers_of_beat++;
}

/* Takes the answers that are there; with a wait, once at least one is. */
static void hears(int is_waiting) {
    static char text[ROOM + 1];
    static size_t have;
    struct pollfd in = {0, POLLIN, 0};
    if (poll(&in, 1, is_waiting ? MOST_WAIT : 0) != 1) {
        if (is_waiting) fail("feed: no answer");
        return;
    }
    const ssize_t got = read(0, text + have, ROOM - have);
    if (got <= 0) fail("feed: no answers any more");
    have += (size_t)got;
    text[have] = 0;
    char *from = text;
    for (char *end; (end = strchr(from, '\n')); from = end + 1) {
        *end = 0;
        take(from);
    }
    have -= (size_t)(from - text);
    memmove(text, from, have);
}

static void as_fast_as_taken(long sweeps) {
    const int64_t began = now_ns();
    for (long out = 0; placed < sweeps;) {
        for (; out - answered < WINDOW && placed + out - answered < sweeps; out++) writes();
        const long before = refused;
        hears(1);
        if (refused > before) usleep(REST);
    }
    fprintf(stderr, "before %ld refused %ld from %lld\n", placed, refused, (long long)began);
}

static void at_a_beat(long sweeps, int64_t pause) {
    placed = refused = answered = 0;
    if (!(handed = malloc((size_t)sweeps * sizeof *handed))) fail("feed: out of memory");
    int64_t due = now_ns() + 1000000;
    const int64_t began = due;
    for (long i = 0; i < sweeps; i++, due += pause) {
        while (clock_nanosleep(CLOCK_MONOTONIC, TIMER_ABSTIME, &(struct timespec){due / 1000000000, due % 1000000000}, NULL)) {}
        handed[i] = now_ns();
        writes();
        hears(0);
    }
    while (answered < sweeps) hears(1);
    fprintf(stderr, "beat %ld placed %ld refused %ld from %lld\n", sweeps, placed, refused, (long long)began);
}

int main(int argc, char **argv) {
    if (argc != 6) fail("usage: feed VENUES BEFORE SWEEPS PAUSE FILE");
    const int venues = atoi(argv[1]);
    const long before = atol(argv[2]), sweeps = atol(argv[3]), pause = atol(argv[4]) * 1000;
    if (venues < 1 || venues > MOST_VENUES) fail("feed: 1 to 16 venues");
    char *at = put(line, "sweep");
    for (int v = 0; v < venues; v++) at = put(put_number(put(at, v ? " + V" : " V"), v), " IBM buy 10 10");
    length = (size_t)(put(at, "\n") - line);
    if (!(file = fopen(argv[5], "w"))) fail("feed: cannot write");
    /* A sleep ends when it is due, and not up to 50 microseconds later. */
    prctl(PR_SET_TIMERSLACK, 1);
    if (before) {
        as_fast_as_taken(before);
        usleep(SETTLE);
    }
    if (sweeps) at_a_beat(sweeps, pause);
    return fclose(file) != 0;
}
