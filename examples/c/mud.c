/* mud [PORT]: a room for one player after another, with GMCP (201) and MSSP (70), which are options of its own.
 *   cc -Iinclude examples/c/mud.c out/libtn.a -o mud
 *   ./mud 2323 &   then   telnet 127.0.0.1 2323, or a MUD client
 */
#include "tn.h"

#include <arpa/inet.h>
#include <stdio.h>
#include <stdlib.h>
#include <string.h>
#include <sys/socket.h>
#include <unistd.h>

enum { MSSP = 70, GMCP = 201, WILL = 251, DO = 253 };

static tn_server end;

/* Says a text, which finds room on the screen: all of the screen is spelled each time. */
static bool say(const char *text)
{
    size_t count = 0;
    return tn_server_say(&end, (const uint8_t *)text, strlen(text), &count) == TN_OK && count == strlen(text);
}

static bool send_sub(uint8_t option, const char *text)
{
    return tn_server_say_own_sub(&end, option, (const uint8_t *)text, strlen(text)) == TN_OK;
}

/* Answers what came for GMCP and MSSP: DO MSSP gets the variables, and a client's Core.Hello a message. */
static bool answer_options(void)
{
    uint8_t text[512] = { 0 };
    tn_item item = { TN_NO_ITEM, 0, 0, 0 };
    size_t length = 0;
    while (tn_server_take_own(&end, &item) == TN_OK && tn_server_own_parameters(&end, text, sizeof text, &length) == TN_OK) {
        if (item.kind == TN_NO_ITEM)
            return true;
        if ((item.option == MSSP && item.code == DO && !send_sub(MSSP, "\1NAME\2A small room\1PLAYERS\2" "1"))
            || (item.option == GMCP && length >= 10 && memcmp(text, "Core.Hello", 10) == 0 && !send_sub(GMCP, "Room.Info {\"num\": 1}")))
            return false;
    }
    return false;
}

/* Answers each line. False if the player left, or memory was refused. */
static bool answer_lines(void)
{
    char line[256] = { 0 };
    tn_kind kind = TN_NONE;
    size_t length = 0;
    while (tn_server_take(&end, &kind) == TN_OK && kind != TN_NONE) {
        if (kind == TN_EOF || tn_server_text(&end, (uint8_t *)line, 255, &length) != TN_OK)
            return false;
        line[length] = 0;
        if (kind == TN_TEXT && !(say("You say: ") && say(line)))
            return false;
    }
    return say("");
}

static bool send_all(int fd)
{
    const uint8_t *bytes = NULL;
    size_t count = 0;
    ssize_t n = 0;
    while (tn_server_peek(&end, &bytes, &count) == TN_OK && count > 0)
        if ((n = send(fd, bytes, count, MSG_NOSIGNAL)) <= 0 || tn_server_sent(&end, (size_t)n) != TN_OK)
            return false;
    return true;
}

static void play(int fd)
{
    const tn_flags flags = TN_STANDARD_FLAGS;
    uint8_t piece[512];
    ssize_t n = 0;
    if (tn_server_start(&end, &flags, 255) != TN_OK || tn_server_own(&end, GMCP) != TN_OK || tn_server_own(&end, MSSP) != TN_OK
        || tn_server_say_own(&end, GMCP, WILL) != TN_OK || tn_server_say_own(&end, MSSP, WILL) != TN_OK || !say("You are in a small room.\n"))
        return;
    while (send_all(fd) && (n = recv(fd, piece, sizeof piece, 0)) > 0)
        if (tn_server_feed(&end, piece, (size_t)n) != TN_OK || !answer_options() || !answer_lines())
            break;
    send_all(fd);
}

int main(int argc, char **argv)
{
    struct sockaddr_in at = { .sin_family = AF_INET, .sin_port = htons((uint16_t)(argc > 1 ? atoi(argv[1]) : 2323)) };
    socklen_t length = sizeof at;
    int fd = -1, listener = socket(AF_INET, SOCK_STREAM, 0);
    at.sin_addr.s_addr = htonl(INADDR_LOOPBACK);
    if (bind(listener, (struct sockaddr *)&at, sizeof at) || listen(listener, 16) || getsockname(listener, (struct sockaddr *)&at, &length))
        return 1;
    printf("port %d\n", ntohs(at.sin_port));
    fflush(stdout);
    for (; (fd = accept(listener, NULL, NULL)) >= 0; tn_server_free(&end), close(fd))
        play(fd);
    return 1;
}
