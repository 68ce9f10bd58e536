/* echo_server [PORT [remote]]: answers each line of each client in capitals. One thread, epoll, as many clients as there are descriptors.
 * Lines are edited at the client if it can do that, and at the server if the second word is given.
 *
 *   cc -Iinclude examples/c/echo_server.c out/libtn.a -o echo_server
 *   ./echo_server 2323 &   then   telnet 127.0.0.1 2323
 */
#define _GNU_SOURCE /* accept4 */
#include "tn.h"

#include <arpa/inet.h>
#include <ctype.h>
#include <errno.h>
#include <netinet/tcp.h>
#include <stdio.h>
#include <stdlib.h>
#include <sys/epoll.h>
#include <sys/socket.h>
#include <unistd.h>

#define LIMIT 255

struct client {
    int fd;
    bool is_done;
    tn_server end;
};

static int polling;
static bool is_local = true;

static void leave(struct client *c)
{
    tn_server_free(&c->end);
    close(c->fd);
    free(c);
}

/* Says all of it, and the echo. False if memory was refused. */
static bool say(struct client *c, const uint8_t *text, size_t length)
{
    size_t done = 0, count = 0;
    do {
        if (tn_server_say(&c->end, text + done, length - done, &count) != TN_OK)
            return false;
        done += count;
    } while (done < length);
    return true;
}

/* The job: a line is answered in capitals, a signal by ^, and an end of file ends it. False if memory was refused. */
static bool answer(struct client *c)
{
    uint8_t line[LIMIT] = { 0 };
    size_t length = 0;
    tn_kind kind = TN_NONE;
    while (say(c, line, 0) && tn_server_take(&c->end, &kind) == TN_OK) {
        if (kind == TN_NONE || kind == TN_EOF) {
            c->is_done = kind == TN_EOF;
            return true;
        }
        if (tn_server_text(&c->end, line, sizeof line, &length) != TN_OK)
            return false;
        for (size_t i = 0; i < length; i++)
            line[i] = (uint8_t)toupper(line[i]);
        if (!(kind == TN_TEXT ? say(c, line, length) : say(c, (const uint8_t *)"^\n", 2)))
            return false;
    }
    return false;
}

/* Feeds what has come. What is left of it is fed once the entries before it were answered, so no paste is too long. */
static bool feed(struct client *c, const uint8_t *piece, size_t length)
{
    size_t taken = 0;
    for (; length > 0 && !c->is_done; piece += taken, length -= taken)
        if (tn_server_feed_some(&c->end, piece, length, &taken) != TN_OK || !answer(c))
            return false;
    return true;
}

/* Sends what waits, as much as the socket takes: a client that does not read what it was sent is not read either. Once the job has ended
 * and all was sent, the client gets the end of the stream, and what still comes is dropped: to close at once could cost it what is on its
 * way. */
static bool send_some(struct client *c)
{
    struct epoll_event wanted = { .events = EPOLLIN, .data.ptr = c };
    const uint8_t *bytes = NULL;
    size_t count = 0;
    ssize_t n = 0;
    if (tn_server_peek(&c->end, &bytes, &count) != TN_OK)
        return false;
    if (count > 0 && (n = send(c->fd, bytes, count, MSG_NOSIGNAL)) < 0 && errno != EAGAIN)
        return false;
    if (n > 0 && tn_server_sent(&c->end, (size_t)n) != TN_OK)
        return false;
    if (n != (ssize_t)count)
        wanted.events = EPOLLOUT;
    else if (c->is_done)
        shutdown(c->fd, SHUT_WR);
    return epoll_ctl(polling, EPOLL_CTL_MOD, c->fd, &wanted) == 0;
}

/* False if the connection is over. */
static bool serve(struct client *c, uint32_t events)
{
    uint8_t piece[4096];
    if (events != EPOLLOUT) {
        ssize_t n = recv(c->fd, piece, sizeof piece, 0);
        if (n <= 0)
            return n < 0 && errno == EAGAIN;
        if (!feed(c, piece, (size_t)n))
            c->is_done = true;
    }
    return send_some(c);
}

static void welcome(int listener)
{
    static const tn_flags flags = TN_STANDARD_FLAGS;
    struct client *c = calloc(1, sizeof *c);
    struct epoll_event none = { .events = 0 };
    int on = 1;
    bool sent = false;
    if (!c || (c->fd = accept4(listener, NULL, NULL, SOCK_NONBLOCK)) < 0) {
        free(c);
        return;
    }
    setsockopt(c->fd, IPPROTO_TCP, TCP_NODELAY, &on, sizeof on); /* else an agreement waits 40 ms for the one before it */
    if (tn_server_start(&c->end, &flags, LIMIT) != TN_OK || tn_server_wish(&c->end, is_local, &sent) != TN_OK
        || epoll_ctl(polling, EPOLL_CTL_ADD, c->fd, &none) || !send_some(c))
        leave(c);
}

int main(int argc, char **argv)
{
    struct sockaddr_in at = { .sin_family = AF_INET, .sin_addr.s_addr = htonl(INADDR_LOOPBACK) };
    struct epoll_event ready[64] = { { .events = EPOLLIN } };
    socklen_t length = sizeof at;
    int on = 1, count, listener = socket(AF_INET, SOCK_STREAM, 0);
    at.sin_port = htons((uint16_t)(argc > 1 ? atoi(argv[1]) : 2323));
    is_local = argc < 3;
    setsockopt(listener, SOL_SOCKET, SO_REUSEADDR, &on, sizeof on);
    polling = epoll_create1(0);
    if (bind(listener, (struct sockaddr *)&at, sizeof at) || listen(listener, 1024) || epoll_ctl(polling, EPOLL_CTL_ADD, listener, ready)) {
        perror("echo_server");
        return 1;
    }
    getsockname(listener, (struct sockaddr *)&at, &length);
    printf("port %d\n", ntohs(at.sin_port));
    fflush(stdout);
    while ((count = epoll_wait(polling, ready, 64, -1)) >= 0 || errno == EINTR)
        for (int i = 0; i < count; i++) {
            struct client *c = ready[i].data.ptr;
            if (c == NULL)
                welcome(listener);
            else if (!serve(c, ready[i].events))
                leave(c);
        }
    perror("echo_server");
    return 1;
}
