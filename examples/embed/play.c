/* Plays a text of events, as break.play, on a core in this process, and prints it with what the core says. Where all is
   as wanted, that is the text itself. */
#include "dispatch.h"

#include <pthread.h>
#include <stdio.h>
#include <stdlib.h>
#include <string.h>
#include <sys/socket.h>
#include <unistd.h>

#define MOST_IN_PACKET 65536

struct core {
    char setup[4096];
    int socket;
    uint32_t ended;
};

static void *run(void *at) {
    struct core *core = at;
    core->ended = dispatch_run((const uint8_t *)core->setup, strlen(core->setup), core->socket);
    return NULL;
}

static void fail(const char *why) {
    perror(why);
    exit(1);
}

/* Prints a frame's fields between BodyLength (9) and CheckSum (10). */
static void print_frame(const char *venue, const char *frame, size_t length) {
    const char *body = memchr(frame, 1, length);
    body = body ? memchr(body + 1, 1, frame + length - body - 1) : NULL;
    printf("> %s ", venue);
    for (const char *at = body ? body + 1 : frame; at < frame + length - 7; at++)
        putchar(*at == 1 ? '|' : *at);
    putchar('\n');
}

/* Prints a packet of an answer: frames as `>`, all else as `=`. Tells whether it is the last one. */
static int print_packet(const char *said, size_t length) {
    const char *end = said + length;
    while (said < end) {
        const char *next = memchr(said, '\n', end - said);
        if (!next)
            fail("a packet without an end");
        char venue[32];
        size_t frame;
        if (strncmp(said, "done\n", 5) == 0)
            return 1;
        if (sscanf(said, "write %31s %zu\n", venue, &frame) == 2) {
            print_frame(venue, next + 1, frame);
            next += frame + 1;
        } else {
            printf("= %.*s\n", (int)(next - said), said);
        }
        said = next + 1;
    }
    return 0;
}

/* Sends an event, and prints its answer. */
static void tell(int host, const char *event, size_t length) {
    static char packet[MOST_IN_PACKET];
    ssize_t got;
    if (send(host, event, length, MSG_NOSIGNAL) < 0)
        fail("send");
    do {
        got = recv(host, packet, sizeof packet, 0);
        if (got <= 0)
            fail("recv");
    } while (!print_packet(packet, got));
}

/* Puts the frame of some fields, `|` for SOH, behind what is written there. The end of all is given. */
static char *put_frame(char *at, const char *fields) {
    size_t length = strlen(fields);
    char *frame = at;
    at += sprintf(at, "8=FIX.4.4\0019=%zu\001", length);
    for (; *fields; fields++)
        *at++ = *fields == '|' ? 1 : *fields;
    unsigned sum = 0;
    for (char *byte = frame; byte < at; byte++)
        sum += (unsigned char)*byte;
    return at + sprintf(at, "10=%03u\001", sum % 256);
}

int main(int count, char **words) {
    FILE *text = count == 2 ? fopen(words[1], "r") : NULL;
    if (!text)
        fail("play TEXT");
    int ends[2];
    if (socketpair(AF_UNIX, SOCK_SEQPACKET, 0, ends) != 0)
        fail("socketpair");
    struct core core = {.socket = ends[1]};
    pthread_t thread;
    int is_up = 0;
    char line[8192], event[16384], at[64] = "";
    while (fgets(line, sizeof line, text)) {
        line[strcspn(line, "\n")] = 0;
        char first = line[0];
        if (first == '>' || first == '=')
            continue;
        puts(line);
        if (strncmp(line, "venue ", 6) == 0) {
            strcat(strcat(core.setup, line + 6), "\n");
        } else if (strncmp(line, "at ", 3) == 0) {
            strcpy(at, line + 3);
        } else if (first == '!' || first == '<') {
            if (!is_up && pthread_create(&thread, NULL, run, &core) != 0)
                fail("pthread_create");
            is_up = 1;
            char *end = event;
            if (first == '!') {
                end += sprintf(end, "%s %s", at, line + 2);
            } else {
                char *fields = strchr(line + 2, ' ');
                end += sprintf(end, "%s received %.*s\n", at, (int)(fields - line - 2), line + 2);
                end = put_frame(end, fields + 1);
            }
            tell(ends[0], event, end - event);
        }
    }
    close(ends[0]);
    if (is_up)
        pthread_join(thread, NULL);
    return (int)core.ended;
}
