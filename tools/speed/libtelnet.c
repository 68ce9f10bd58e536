// Feeds libtelnet 0.21 (Debian: libtelnet-dev) the streams that the decoder and the sending server of tn_bench get.
//
//   cc -O2 -o libtelnet tools/speed/libtelnet.c -ltelnet && ./libtelnet
#include "measure.h"
#include <libtelnet.h>
#include <string.h>

#define PIECE 4096
#define PRINTED 960 // telnet_printf sends nothing of a text that has more than 1,023 bytes

static char stream[65536], sent[4 * PIECE];
static size_t held;
static double events;

static void count(telnet_t *telnet, telnet_event_t *event, void *data) {
    (void)telnet, (void)event, (void)data;
    events++;
}

// What is to be sent goes to a buffer.
static void keep(telnet_t *telnet, telnet_event_t *event, void *data) {
    (void)telnet, (void)data;
    if (event->type != TELNET_EV_SEND || event->data.size > sizeof sent - held) return;
    memcpy(sent + held, event->data.buffer, event->data.size);
    held += event->data.size;
}

static struct done receive(void *telnet) {
    size_t at;
    events = 0;
    for (at = 0; at < sizeof stream; at += PIECE) telnet_recv(telnet, stream + at, PIECE);
    return (struct done){sizeof stream, events};
}

static struct done send_plain(void *telnet) {
    struct done all = {sizeof stream, 0};
    size_t at;
    for (at = 0; at < sizeof stream; at += PIECE, all.wholes += (double)held) {
        held = 0;
        telnet_send(telnet, stream + at, PIECE);
    }
    return all;
}

// What makes CR LF of a line feed, as a terminal does.
static struct done send_lines(void *telnet) {
    struct done all = {sizeof stream, 0};
    size_t at;
    for (at = 0; at < sizeof stream; at += PRINTED, all.wholes += (double)held) {
        size_t piece = sizeof stream - at < PRINTED ? sizeof stream - at : PRINTED;
        held = 0;
        telnet_printf(telnet, "%.*s", (int)piece, stream + at);
    }
    return all;
}

static void measure(const char *name, const char *bytes, size_t length, telnet_event_handler_t handler, struct done (*once)(void *)) {
    static const telnet_telopt_t options[] = {{-1, 0, 0}};
    telnet_t *telnet = telnet_init(options, handler, 0, 0);
    size_t at;
    for (at = 0; at < sizeof stream; at++) stream[at] = bytes[at % length];
    tell(name, once, telnet);
    telnet_free(telnet);
}

int main(void) {
    static const char line[] = "the quick brown fox jumps over the lazy dog, and all is as was\r\n";
    static const char output[] = "the quick brown fox jumps over the lazy dog, and all is as was.\n";
    static const char mix[] = "ab\xff\xff" "cd\r\0ef\xff\xfb\x01gh\xff\xf1ij\xff\xfa\x1f\0\x50\0\x18\xff\xf0kl\r\n";
    puts("libtelnet");
    measure("decoding plain text", "x", 1, count, receive);
    measure("decoding lines of 64", line, sizeof line - 1, count, receive);
    measure("decoding a mix of escapes", mix, sizeof mix - 1, count, receive);
    measure("a server sends plain text, read to a buffer", "x", 1, keep, send_plain);
    measure("a server sends lines of 64, read to a buffer", output, sizeof output - 1, keep, send_lines);
    measure("a server sends blank lines, read to a buffer", "\n", 1, keep, send_lines);
    measure("a server sends bytes 255, read to a buffer", "\xff", 1, keep, send_plain);
    return 0;
}
