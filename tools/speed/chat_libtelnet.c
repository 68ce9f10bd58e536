// The chat of examples/c/chat.c on libtelnet 0.21 (Debian: libtelnet-dev), for tools/speed/chat.
// It has no LINEMODE, so each line is edited here, with ERASE alone, and echoed; the loop is that of chat.c.
//
//   cc -O2 -o chat_libtelnet tools/speed/chat_libtelnet.c -ltelnet && ./chat_libtelnet PORT
#include <arpa/inet.h>
#include <errno.h>
#include <libtelnet.h>
#include <netinet/in.h>
#include <poll.h>
#include <stdbool.h>
#include <stdio.h>
#include <stdlib.h>
#include <string.h>
#include <sys/resource.h>
#include <sys/socket.h>
#include <unistd.h>

#define MAX_CLIENTS 4096
#define LIMIT 255
#define PIECE 512
#define BACKLOG 65536

enum { ERASE = 127, END_OF_FILE = 4 };

struct client {
    int fd;
    bool is_over;
    telnet_t *end;
    char *out; // to be sent
    size_t length, room;
    char line[LIMIT];
    size_t typed;
};

static struct client *clients[MAX_CLIENTS];
static struct pollfd polled[MAX_CLIENTS + 1];
static size_t count;

static void leave(struct client *c) {
    telnet_free(c->end);
    close(c->fd);
    free(c->out);
    free(c);
}

static void append(struct client *c, const char *bytes, size_t length) {
    if (c->length + length > BACKLOG) {
        c->is_over = true;
        return;
    }
    if (c->length + length > c->room) {
        c->room = 2 * (c->length + length);
        c->out = realloc(c->out, c->room);
        if (!c->out) exit(1);
    }
    memcpy(c->out + c->length, bytes, length);
    c->length += length;
}

static void say_line(struct client *from) {
    for (size_t i = 0; i < count; i++)
        if (clients[i] != from && !clients[i]->is_over)
            telnet_printf(clients[i]->end, "%d> %.*s\n", from->fd, (int)from->typed, from->line);
    from->typed = 0;
}

static void key(struct client *c, char byte) {
    if (byte == '\r') {
        telnet_send(c->end, "\r\n", 2);
        say_line(c);
    } else if (byte == '\n' || byte == 0) {
        return; // of CR LF and CR NUL
    } else if (byte == ERASE && c->typed > 0) {
        c->typed--;
        telnet_send(c->end, "\b \b", 3);
    } else if (byte == END_OF_FILE && c->typed == 0) {
        c->is_over = true;
    } else if (c->typed < LIMIT - 1) {
        c->line[c->typed++] = byte;
        telnet_send(c->end, &byte, 1);
    }
}

static void happened(telnet_t *end, telnet_event_t *event, void *user) {
    struct client *c = user;
    (void)end;
    switch (event->type) {
    case TELNET_EV_DATA:
        for (size_t i = 0; i < event->data.size; i++) key(c, event->data.buffer[i]);
        break;
    case TELNET_EV_SEND:
        append(c, event->data.buffer, event->data.size);
        break;
    case TELNET_EV_ERROR:
        c->is_over = true;
        break;
    default:
        break;
    }
}

static const telnet_telopt_t options[] = {
    {TELNET_TELOPT_ECHO, TELNET_WILL, TELNET_DONT}, {TELNET_TELOPT_SGA, TELNET_WILL, TELNET_DO}, {-1, 0, 0}};

static void welcome(int listener) {
    int fd = accept(listener, NULL, NULL);
    struct client *c = fd < 0 || count == MAX_CLIENTS ? NULL : calloc(1, sizeof *c);
    if (!c) {
        if (fd >= 0) close(fd);
        return;
    }
    c->fd = fd;
    c->end = telnet_init(options, happened, 0, c);
    telnet_negotiate(c->end, TELNET_WILL, TELNET_TELOPT_SGA);
    telnet_negotiate(c->end, TELNET_WILL, TELNET_TELOPT_ECHO);
    clients[count++] = c;
}

static bool is_passing(ssize_t done) {
    return done < 0 && (errno == EAGAIN || errno == EINTR);
}

static void send_some(struct client *c) {
    while (!c->is_over && c->length > 0) {
        ssize_t n = send(c->fd, c->out, c->length, MSG_NOSIGNAL | MSG_DONTWAIT);
        if (n < 0) {
            c->is_over = !is_passing(n);
            return;
        }
        c->length -= (size_t)n;
        memmove(c->out, c->out + n, c->length);
    }
}

static void receive(struct client *c) {
    char piece[PIECE];
    ssize_t n = recv(c->fd, piece, sizeof piece, MSG_DONTWAIT);
    if (n <= 0)
        c->is_over = !is_passing(n);
    else
        telnet_recv(c->end, piece, (size_t)n);
}

static void send_all(void) {
    size_t kept = 0;
    for (size_t i = 0; i < count; i++)
        if (clients[i]->length > 0) send_some(clients[i]);
    for (size_t i = 0; i < count; i++) {
        if (clients[i]->is_over)
            leave(clients[i]);
        else
            clients[kept++] = clients[i];
    }
    count = kept;
}

int main(int argc, char **argv) {
    struct rlimit files = {MAX_CLIENTS + 16, MAX_CLIENTS + 16};
    struct sockaddr_in at = {.sin_family = AF_INET, .sin_addr.s_addr = htonl(INADDR_LOOPBACK)};
    socklen_t length = sizeof at;
    int on = 1, listener = socket(AF_INET, SOCK_STREAM, 0);
    at.sin_port = htons((uint16_t)(argc > 1 ? atoi(argv[1]) : 2323));
    setsockopt(listener, SOL_SOCKET, SO_REUSEADDR, &on, sizeof on);
    if (bind(listener, (struct sockaddr *)&at, sizeof at) || listen(listener, 1024)) {
        perror("chat_libtelnet");
        return 1;
    }
    getsockname(listener, (struct sockaddr *)&at, &length);
    printf("port %d\n", ntohs(at.sin_port));
    fflush(stdout);
    setrlimit(RLIMIT_NOFILE, &files);
    for (;;) {
        size_t heard = count;
        for (size_t i = 0; i < count; i++)
            polled[i] = (struct pollfd){.fd = clients[i]->fd, .events = clients[i]->length > 0 ? POLLOUT : POLLIN};
        polled[count] = (struct pollfd){.fd = listener, .events = POLLIN};
        if (poll(polled, count + 1, -1) < 0) continue;
        if (polled[heard].revents & POLLIN) welcome(listener);
        for (size_t i = 0; i < heard; i++)
            if (polled[i].revents & (POLLIN | POLLHUP | POLLERR)) receive(clients[i]);
        send_all();
    }
}
