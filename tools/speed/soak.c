// Sessions that each type a line, wait for its echo and its answer, and then type the next one, as tools/trials/speed.py has it.
//
//   cc -O2 -o soak tools/speed/soak.c && ./soak PORT PID SESSIONS TIMES [keys]
//
// PID is the server's process, whose processor time is read. With `keys` a session types a key and ERASE in turn in
// place of lines. Each byte that comes back is compared. Prints how many lines or keys were answered, in how many
// seconds, how many seconds of a processor the server and this program used, and the median of the microseconds that
// one took. Ends with status 0 where all was right.
#define _GNU_SOURCE
#include <arpa/inet.h>
#include <errno.h>
#include <netinet/in.h>
#include <netinet/tcp.h>
#include <stdbool.h>
#include <stdio.h>
#include <stdlib.h>
#include <string.h>
#include <sys/epoll.h>
#include <sys/resource.h>
#include <sys/socket.h>
#include <time.h>
#include <unistd.h>

#define PATIENCE 10000 // milliseconds without any answer
#define EVENTS 64

// DO LINEMODE, DO NAWS, WILL and DO SUPPRESS-GO-AHEAD, WILL ECHO; and what a client says that has no LINEMODE and no size.
static const char opening[] = "\xff\xfd\x22\xff\xfd\x1f\xff\xfb\x03\xff\xfd\x03\xff\xfb\x01";
static const char answers[] = "\xff\xfc\x22\xff\xfc\x1f\xff\xfd\x03\xff\xfb\x03\xff\xfd\x01";

struct session {
    int number, socket, times;
    char due[128];
    size_t size, got;
    double since;
};

static bool types_keys;
static int times, left;
static double *taken;
static size_t took;

static void fail(const char *what) {
    fprintf(stderr, "soak: %s: %s\n", what, strerror(errno));
    exit(1);
}

static double now(void) {
    struct timespec time;
    clock_gettime(CLOCK_MONOTONIC, &time);
    return (double)time.tv_sec + (double)time.tv_nsec / 1e9;
}

// The processor time of the server, of all its threads.
static double used_by(int pid) {
    char path[64], text[1024], *words;
    unsigned long user, system;
    FILE *file;
    snprintf(path, sizeof path, "/proc/%d/stat", pid);
    file = fopen(path, "r");
    if (!file || !fgets(text, sizeof text, file)) fail("the server's process");
    fclose(file);
    words = strrchr(text, ')');
    if (!words || sscanf(words + 1, " %*s %*s %*s %*s %*s %*s %*s %*s %*s %*s %*s %lu %lu", &user, &system) != 2)
        fail(path);
    return (double)(user + system) / (double)sysconf(_SC_CLK_TCK);
}

static double used_here(void) {
    struct rusage usage;
    getrusage(RUSAGE_SELF, &usage);
    return (double)(usage.ru_utime.tv_sec + usage.ru_stime.tv_sec) +
           (double)(usage.ru_utime.tv_usec + usage.ru_stime.tv_usec) / 1e6;
}

static void type(struct session *session, const char *keys, int length) {
    if (send(session->socket, keys, (size_t)length, MSG_NOSIGNAL) != length) fail("send");
}

static void expect(struct session *session, const char *due, int length) {
    memcpy(session->due, due, (size_t)length);
    session->size = (size_t)length;
    session->got = 0;
    session->since = now();
}

// A line with a wrong byte and ERASE; every eighth begins with others, and KILL.
static void type_line(struct session *session) {
    char line[32], keys[64], due[128];
    const char *wrong = session->times % 8 == 7 ? "wrong\x15" : "", *shown = *wrong ? "wrong\r\n" : "";
    int last = session->times % 10, length;
    snprintf(line, sizeof line, "session %02d line %04d", session->number, session->times / 10);
    length = snprintf(due, sizeof due, "%s%sx\b \b%d\r\n%s%d\r\n", shown, line, last, line, last);
    expect(session, due, length);
    length = snprintf(keys, sizeof keys, "%s%sx\x7f%d\r", wrong, line, last);
    type(session, keys, length + 1);
}

static void type_next(struct session *session) {
    if (!types_keys) {
        type_line(session);
    } else if (session->times % 2 == 0) {
        expect(session, "x", 1);
        type(session, "x", 1);
    } else {
        expect(session, "\b \b", 3);
        type(session, "\x7f", 1);
    }
}

static void tell_wrong(struct session *session, const char *bytes, size_t count) {
    size_t at;
    fprintf(stderr, "soak: session %d, turn %d: wanted ", session->number, session->times);
    for (at = session->got; at < session->size; at++) fprintf(stderr, "%02x", (unsigned char)session->due[at]);
    fprintf(stderr, ", got ");
    for (at = 0; at < count; at++) fprintf(stderr, "%02x", (unsigned char)bytes[at]);
    fprintf(stderr, "%s\n", count ? "" : "the end");
    exit(1);
}

// Reads what came, and says whether all that was due has come.
static bool has_come(struct session *session) {
    char bytes[256];
    ssize_t count = recv(session->socket, bytes, sizeof bytes, 0);
    if (count < 0) fail("receive");
    if (count == 0 || session->got + (size_t)count > session->size || memcmp(bytes, session->due + session->got, (size_t)count))
        tell_wrong(session, bytes, (size_t)count);
    session->got += (size_t)count;
    return session->got == session->size;
}

static void await(struct session *session) {
    while (!has_come(session)) {}
}

static struct session start_session(int port, int number) {
    struct sockaddr_in address = {.sin_family = AF_INET, .sin_port = htons((uint16_t)port)};
    struct timeval patience = {PATIENCE / 1000, 0};
    struct session session = {.number = number};
    int one = 1;
    address.sin_addr.s_addr = htonl(INADDR_LOOPBACK);
    session.socket = socket(AF_INET, SOCK_STREAM, 0);
    if (session.socket < 0) fail("socket");
    if (connect(session.socket, (struct sockaddr *)&address, sizeof address)) fail("connect");
    setsockopt(session.socket, IPPROTO_TCP, TCP_NODELAY, &one, sizeof one);
    setsockopt(session.socket, SOL_SOCKET, SO_RCVTIMEO, &patience, sizeof patience);
    expect(&session, opening, sizeof opening - 1);
    await(&session);
    type(&session, answers, sizeof answers - 1);
    return session;
}

static void end_session(struct session *session) {
    char byte;
    expect(session, "exit\r\nbye\r\n", 11);
    type(session, "exit\r", 6);
    await(session);
    if (recv(session->socket, &byte, 1, 0) != 0) fail("the end of a session");
    close(session->socket);
}

static void go_on(struct session *session) {
    if (!has_come(session)) return;
    taken[took++] = now() - session->since;
    if (++session->times < times) type_next(session);
    else left--;
}

static void converse(struct session *sessions, int count) {
    struct epoll_event events[EVENTS];
    int poll = epoll_create1(0), at, came;
    if (poll < 0) fail("epoll");
    for (at = 0; at < count; at++) {
        struct epoll_event event = {.events = EPOLLIN, .data.ptr = &sessions[at]};
        if (epoll_ctl(poll, EPOLL_CTL_ADD, sessions[at].socket, &event)) fail("epoll");
    }
    for (at = 0; at < count; at++) type_next(&sessions[at]);
    for (left = count; left > 0;) {
        came = epoll_wait(poll, events, EVENTS, PATIENCE);
        if (came == 0) fprintf(stderr, "soak: no answer for %d seconds\n", PATIENCE / 1000), exit(1);
        if (came < 0 && errno != EINTR) fail("wait");
        for (at = 0; at < came; at++) go_on(events[at].data.ptr);
    }
    close(poll);
}

static int by_time(const void *one, const void *other) {
    double a = *(const double *)one, b = *(const double *)other;
    return (a > b) - (a < b);
}

int main(int count, char **words) {
    double begin, server, here;
    struct session *sessions;
    int number, at;
    if (count < 5) fprintf(stderr, "usage: soak PORT PID SESSIONS TIMES [keys]\n"), exit(2);
    number = atoi(words[3]), times = atoi(words[4]), types_keys = count > 5;
    if (number < 1 || number > 99 || times < 1 || times > 99998)
        fprintf(stderr, "soak: 1 to 99 sessions, 1 to 99998 times\n"), exit(2);
    if (types_keys) times += times % 2; // each key is erased
    sessions = calloc((size_t)number, sizeof *sessions);
    taken = calloc((size_t)number * (size_t)times, sizeof *taken);
    if (!sessions || !taken) fail("memory");
    for (at = 0; at < number; at++) sessions[at] = start_session(atoi(words[1]), at);
    begin = now(), server = used_by(atoi(words[2])), here = used_here();
    converse(sessions, number);
    begin = now() - begin, server = used_by(atoi(words[2])) - server, here = used_here() - here;
    for (at = 0; at < number; at++) end_session(&sessions[at]);
    qsort(taken, took, sizeof *taken, by_time);
    printf("%zu %.6f %.2f %.6f %.1f\n", took, begin, server, here, taken[took / 2] * 1e6);
    return 0;
}
