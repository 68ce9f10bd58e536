/* chat [PORT]: what a client types is said to all others, line by line. One thread, poll, up to 4,096 clients.
 * Lines are edited at each client that can do that (LINEMODE), and here for the others; ^D leaves.
 *
 *   cc -O2 -Iinclude examples/c/chat.c out/libtn.a -o chat
 *   ./chat 2323 &   then   telnet 127.0.0.1 2323   in several windows
 */
#include "tn.h"

#include <arpa/inet.h>
#include <errno.h>
#include <netinet/tcp.h>
#include <poll.h>
#include <stdio.h>
#include <stdlib.h>
#include <string.h>
#include <sys/resource.h>
#include <sys/socket.h>
#include <unistd.h>

#define MAX_CLIENTS 4096
#define LIMIT 255
#define BACKLOG 65536    /* what may wait to be said to a client that does not read; one who lets more wait is left */

struct client {
    int fd;
    bool is_over;
    tn_server end;
};

static struct client *clients[MAX_CLIENTS];
static struct pollfd polled[MAX_CLIENTS + 1]; /* the listener stands last */
static size_t count;

static void leave(struct client *c)
{
    tn_server_free(&c->end);
    close(c->fd);
    free(c);
}

static void welcome(int listener)
{
    static const tn_flags flags = TN_STANDARD_FLAGS;
    int on = 1, fd = accept(listener, NULL, NULL);
    struct client *c = fd < 0 || count == MAX_CLIENTS ? NULL : calloc(1, sizeof *c);
    bool sent = false;
    if (!c) {
        if (fd >= 0)
            close(fd); /* the house is full */
        return;
    }
    c->fd = fd;
    setsockopt(fd, IPPROTO_TCP, TCP_NODELAY, &on, sizeof on); /* else an agreement waits 40 ms for the one before it */
    if (tn_server_start(&c->end, &flags, LIMIT) != TN_OK || tn_server_wish(&c->end, true, &sent) != TN_OK) {
        leave(c);
        return;
    }
    clients[count++] = c;
}

/* Bytes that wait to be sent. */
static size_t pending(struct client *c)
{
    size_t waiting = 0;
    if (tn_server_pending(&c->end, &waiting) != TN_OK)
        c->is_over = true;
    return waiting;
}

/* Says a text to a client, all of it, and spells the echo of what it typed. */
static void say(struct client *c, const uint8_t *text, size_t length)
{
    size_t done = 0, count = 0;
    if (pending(c) > BACKLOG)
        c->is_over = true;
    do {
        if (c->is_over || tn_server_say(&c->end, text + done, length - done, &count) != TN_OK) {
            c->is_over = true;
            return;
        }
        done += count;
    } while (done < length);
}

/* Takes what was typed: each line goes to all others. */
static void hear(struct client *c)
{
    uint8_t line[LIMIT + 16];
    for (;;) {
        tn_kind kind = TN_NONE;
        size_t length = 0;
        int name = snprintf((char *)line, 16, "%d> ", c->fd);
        memset(line + name, 0, LIMIT);
        if (tn_server_take(&c->end, &kind) != TN_OK || kind == TN_EOF)
            c->is_over = true;
        if (c->is_over || kind == TN_NONE)
            return;
        if (kind != TN_TEXT || tn_server_text(&c->end, line + name, LIMIT, &length) != TN_OK)
            continue;
        for (size_t i = 0; i < count; i++)
            if (clients[i] != c && !clients[i]->is_over)
                say(clients[i], line, (size_t)name + length);
    }
}

static bool is_passing(ssize_t done)
{
    return done < 0 && (errno == EAGAIN || errno == EINTR);
}

/* Sends the bytes that wait, from their place, as many as the socket takes. */
static void send_some(struct client *c)
{
    const uint8_t *bytes = NULL;
    size_t count = 0;
    while (!c->is_over && tn_server_peek(&c->end, &bytes, &count) == TN_OK && count > 0) {
        ssize_t n = send(c->fd, bytes, count, MSG_NOSIGNAL | MSG_DONTWAIT);
        if (n < 0) {
            c->is_over = !is_passing(n);
            return;
        }
        if (tn_server_sent(&c->end, (size_t)n) != TN_OK)
            c->is_over = true;
    }
}

static void receive(struct client *c)
{
    uint8_t piece[4096];
    ssize_t n = recv(c->fd, piece, sizeof piece, MSG_DONTWAIT);
    size_t taken = 0;
    if (n <= 0) {
        c->is_over = !is_passing(n);
        return;
    }
    for (size_t at = 0; at < (size_t)n && !c->is_over; at += taken) {
        if (tn_server_feed_some(&c->end, piece + at, (size_t)n - at, &taken) != TN_OK) {
            c->is_over = true;
            return;
        }
        say(c, piece, 0); /* the echo */
        hear(c);
    }
}

/* Sends to all, and lets those go that have left. */
static void send_all(void)
{
    size_t kept = 0;
    for (size_t i = 0; i < count; i++)
        if (pending(clients[i]) > 0)
            send_some(clients[i]);
    for (size_t i = 0; i < count; i++) {
        if (clients[i]->is_over)
            leave(clients[i]);
        else
            clients[kept++] = clients[i];
    }
    count = kept;
}

static int open_port(int port)
{
    struct sockaddr_in at = { .sin_family = AF_INET, .sin_addr.s_addr = htonl(INADDR_LOOPBACK), .sin_port = htons((uint16_t)port) };
    socklen_t length = sizeof at;
    int on = 1, listener = socket(AF_INET, SOCK_STREAM, 0);
    setsockopt(listener, SOL_SOCKET, SO_REUSEADDR, &on, sizeof on);
    if (bind(listener, (struct sockaddr *)&at, sizeof at) || listen(listener, 1024)) {
        perror("chat");
        exit(1);
    }
    getsockname(listener, (struct sockaddr *)&at, &length);
    printf("port %d\n", ntohs(at.sin_port));
    fflush(stdout);
    return listener;
}

int main(int argc, char **argv)
{
    struct rlimit files = { MAX_CLIENTS + 16, MAX_CLIENTS + 16 };
    int listener = open_port(argc > 1 ? atoi(argv[1]) : 2323);
    setrlimit(RLIMIT_NOFILE, &files);
    for (;;) {
        size_t heard = count;
        for (size_t i = 0; i < count; i++) {
            polled[i].fd = clients[i]->fd;
            /* a client that does not read what it was sent is not read either */
            polled[i].events = pending(clients[i]) > 0 ? POLLOUT : POLLIN;
        }
        polled[count] = (struct pollfd) { .fd = listener, .events = POLLIN };
        if (poll(polled, count + 1, -1) < 0)
            continue; /* the program was stopped, and goes on */
        if (polled[heard].revents & POLLIN)
            welcome(listener);
        for (size_t i = 0; i < heard; i++)
            if (polled[i].revents & (POLLIN | POLLHUP | POLLERR))
                receive(clients[i]);
        send_all();
    }
}
