/* client HOST PORT: a Telnet client at a terminal, with LINEMODE. control-] ends it.
 *
 *   cc -Iinclude examples/c/client.c out/libtn.a -o client
 *
 * If standard input is no terminal, its bytes are typed as they come. After its end the client shows the server's text
 * until the server closes the connection.
 */
#define _GNU_SOURCE /* ppoll */
#include "tn.h"

#include <errno.h>
#include <netdb.h>
#include <netinet/in.h>
#include <netinet/tcp.h>
#include <poll.h>
#include <signal.h>
#include <stdio.h>
#include <stdlib.h>
#include <string.h>
#include <sys/ioctl.h>
#include <sys/socket.h>
#include <termios.h>
#include <unistd.h>

#define LIMIT 255
#define ESCAPE 29 /* control-] */

static struct termios before;
static volatile sig_atomic_t is_resized;
static uint8_t out[4096]; /* read out of the end, and not sent yet: from..to */
static size_t from, to;

static void on_resize(int signal)
{
    (void)signal;
    is_resized = 1;
}

static void restore(void)
{
    tcsetattr(STDIN_FILENO, TCSADRAIN, &before);
}

/* Each key comes as it is typed: the end echoes and edits, and a control-C is a key. */
static void set_raw(void)
{
    struct termios raw;
    if (tcgetattr(STDIN_FILENO, &before))
        return;
    atexit(restore);
    raw = before;
    raw.c_iflag &= (tcflag_t) ~(ICRNL | INLCR | IGNCR | IXON | ISTRIP);
    raw.c_lflag &= (tcflag_t) ~(ICANON | ECHO | ISIG | IEXTEN);
    raw.c_oflag &= (tcflag_t)~OPOST;
    raw.c_cc[VMIN] = 1;
    raw.c_cc[VTIME] = 0;
    tcsetattr(STDIN_FILENO, TCSADRAIN, &raw);
}

static void window(uint16_t *width, uint16_t *height)
{
    struct winsize size;
    *width = *height = 0; /* not known */
    if (!ioctl(STDIN_FILENO, TIOCGWINSZ, &size)) {
        *width = size.ws_col;
        *height = size.ws_row;
    }
}

static int connect_to(const char *host, const char *port)
{
    struct addrinfo hints = { .ai_socktype = SOCK_STREAM }, *found, *at;
    int on = 1, fd = -1;
    if (getaddrinfo(host, port, &hints, &found))
        return -1;
    for (at = found; at && fd < 0; at = at->ai_next) {
        fd = socket(at->ai_family, at->ai_socktype, at->ai_protocol);
        if (fd >= 0 && connect(fd, at->ai_addr, at->ai_addrlen)) {
            close(fd);
            fd = -1;
        }
    }
    freeaddrinfo(found);
    if (fd >= 0)
        setsockopt(fd, IPPROTO_TCP, TCP_NODELAY, &on, sizeof on); /* else an answer waits 40 ms for the one before it */
    return fd;
}

/* Sends what waits, as much as the socket takes. */
static bool send_some(tn_client *end, int fd)
{
    for (;;) {
        if (from == to) {
            from = to = 0;
            if (tn_client_read(end, out, sizeof out, &to) != TN_OK)
                return false;
            if (to == 0)
                return true;
        }
        ssize_t n = send(fd, out + from, to - from, MSG_DONTWAIT);
        if (n < 0)
            return errno == EAGAIN || errno == EINTR;
        from += (size_t)n;
    }
}

/* Shows what waits, all of it. */
static bool show(tn_client *end)
{
    uint8_t buf[4096] = { 0 };
    size_t count = 0;
    do {
        if (tn_client_screen(end, buf, sizeof buf, &count) != TN_OK)
            return false;
        for (size_t at = 0; at < count;) {
            ssize_t n = write(STDOUT_FILENO, buf + at, count - at);
            if (n <= 0)
                return false;
            at += (size_t)n;
        }
    } while (count > 0);
    return true;
}

/* Types keys. Returns false at the escape, and if a key was refused. */
static bool type_keys(tn_client *end, const uint8_t *keys, size_t length)
{
    for (size_t i = 0; i < length; i++)
        if (keys[i] == ESCAPE || tn_client_key(end, keys[i]) != TN_OK)
            return false;
    return true;
}

static bool resize(tn_client *end)
{
    uint16_t width, height;
    is_resized = 0;
    window(&width, &height);
    return tn_client_resize(end, width, height) == TN_OK;
}

/* Runs the client until the connection is closed. The signal for a change of the window's size comes only while the client waits, so
 * none is missed. No key is read while typed bytes wait to be sent, and the server's bytes are always read, so neither waits for the
 * other. */
static void run(tn_client *end, int fd, const sigset_t *waiting)
{
    bool has_keys = true;
    while ((!is_resized || resize(end)) && send_some(end, fd) && show(end)) {
        uint8_t piece[4096];
        ssize_t n;
        struct pollfd polled[2] = { { .fd = fd, .events = from < to ? POLLIN | POLLOUT : POLLIN },
                                    { .fd = has_keys && from == to ? STDIN_FILENO : -1, .events = POLLIN } };
        if (ppoll(polled, 2, NULL, waiting) < 0) {
            if (errno == EINTR)
                continue; /* a new size */
            return;
        }
        if (polled[0].revents & ~POLLOUT) {
            n = read(fd, piece, sizeof piece);
            if (n <= 0 || tn_client_feed(end, piece, (size_t)n) != TN_OK)
                break;
        }
        if (polled[1].revents) {
            n = read(STDIN_FILENO, piece, sizeof piece);
            if (n > 0 && !type_keys(end, piece, (size_t)n))
                break;
            if (n <= 0)
                has_keys = false; /* the server's text is still shown */
        }
    }
    /* What was typed before the escape, and said before the end. */
    send_some(end, fd);
    show(end);
}

int main(int argc, char **argv)
{
    tn_client end = TN_HANDLE;
    struct sigaction resized;
    sigset_t winch, waiting;
    uint16_t width, height;
    int fd;
    if (argc != 3 || (fd = connect_to(argv[1], argv[2])) < 0) {
        fprintf(stderr, "client: no connection (client HOST PORT)\n");
        return 1;
    }
    memset(&resized, 0, sizeof resized);
    resized.sa_handler = on_resize;
    sigaction(SIGWINCH, &resized, NULL);
    sigemptyset(&winch);
    sigaddset(&winch, SIGWINCH);
    sigprocmask(SIG_BLOCK, &winch, &waiting);
    signal(SIGPIPE, SIG_IGN);
    window(&width, &height);
    if (tn_client_start(&end, width, height, LIMIT) != TN_OK) {
        fprintf(stderr, "client: out of memory\n");
        return 1;
    }
    set_raw();
    run(&end, fd, &waiting);
    tn_client_free(&end);
    close(fd);
    return 0;
}
