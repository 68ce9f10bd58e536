// libtn.a beside libtelnet 0.21 (Debian: libtelnet-dev), in one program and over the same bytes.
//
//   tools/c/build && cc -O2 -Iinclude -o c_library tools/speed/c_library.c out/libtn.a -ltelnet && ./c_library
#define MEASURE_BY CLOCK_THREAD_CPUTIME_ID
#include "measure.h"
#define TN_UNTYPED // a function is for either end
#include "tn.h"
#include <libtelnet.h>
#include <stdbool.h>
#include <stdlib.h>
#include <string.h>

#define PIECE 4096
#define PRINTED 960 // telnet_printf sends nothing of a text that has more than 1,023 bytes
#define SURE(fact) ((fact) ? (void)0 : (fprintf(stderr, "c_library: line %d: %s\n", __LINE__, #fact), exit(3)))

static uint8_t stream[65536], buf[4 * PIECE];
static size_t got;

// What a handler of libtelnet is for: text goes to a buffer, and what is to be sent to the same.
static void keep(telnet_t *telnet, telnet_event_t *event, void *data) {
    (void)telnet, (void)data;
    if (event->type != TELNET_EV_DATA && event->type != TELNET_EV_SEND) return;
    if (got + event->data.size > sizeof buf) got = 0;
    memcpy(buf + got, event->data.buffer, event->data.size);
    got += event->data.size;
}

static struct done recv_theirs(void *telnet) {
    struct done all = {sizeof stream, 0};
    size_t at;
    for (at = 0; at < sizeof stream; at += PIECE) {
        got = 0;
        telnet_recv(telnet, (const char *)stream + at, PIECE);
        all.wholes += (double)got;
    }
    return all;
}

static struct done send_theirs(void *telnet) {
    struct done all = {sizeof stream, 0};
    size_t at;
    for (at = 0; at < sizeof stream; at += PIECE) {
        got = 0;
        telnet_send(telnet, (const char *)stream + at, PIECE);
        SURE(got >= PIECE);
        all.wholes += (double)got;
    }
    return all;
}

// What makes CR LF of a line feed, as a terminal does.
static struct done print_theirs(void *telnet) {
    struct done all = {sizeof stream, 0};
    size_t at;
    for (at = 0; at < sizeof stream; at += PRINTED) {
        size_t piece = sizeof stream - at < PRINTED ? sizeof stream - at : PRINTED;
        got = 0;
        telnet_printf(telnet, "%.*s", (int)piece, (const char *)stream + at);
        SURE(got >= piece);
        all.wholes += (double)got;
    }
    return all;
}

static struct done client_shows(void *client) {
    struct done all = {sizeof stream, 0};
    size_t at, count = 0;
    for (at = 0; at < sizeof stream; at += PIECE) {
        SURE(tn_client_feed(client, stream + at, PIECE) == TN_OK);
        SURE(tn_client_read(client, buf, sizeof buf, &count) == TN_OK);
        SURE(tn_client_screen(client, buf, sizeof buf, &count) == TN_OK);
        all.wholes += (double)count;
    }
    return all;
}

static struct done decoder_gives(void *decoder) {
    struct done all = {sizeof stream, 0};
    tn_item item = {0, 0, 0, 0};
    size_t at;
    for (at = 0; at < sizeof stream; at += PIECE) {
        SURE(tn_decoder_feed(decoder, stream + at, PIECE) == TN_OK);
        while (tn_decoder_take(decoder, &item) == TN_OK && item.kind != TN_NO_ITEM) all.wholes++;
    }
    return all;
}

static struct done decoder_gives_runs(void *decoder) {
    struct done all = {sizeof stream, 0};
    tn_item item = {0, 0, 0, 0};
    size_t at, count = 0;
    for (at = 0; at < sizeof stream; at += PIECE) {
        SURE(tn_decoder_feed(decoder, stream + at, PIECE) == TN_OK);
        do {
            SURE(tn_decoder_take_run(decoder, buf, sizeof buf, &count) == TN_OK);
            all.wholes += (double)count;
            if (count == 0) SURE(tn_decoder_take(decoder, &item) == TN_OK);
        } while (count > 0 || item.kind != TN_NO_ITEM);
    }
    return all;
}

static struct done server_sends(void *server) {
    struct done all = {sizeof stream, 0};
    size_t at = 0, count = 0;
    while (at < sizeof stream) {
        SURE(tn_server_write(server, stream + at, sizeof stream - at < PIECE ? sizeof stream - at : PIECE, &count) == TN_OK);
        at += count;
        SURE(tn_server_pull(server, PIECE, &count) == TN_OK);
        SURE(tn_server_read(server, buf, sizeof buf, &count) == TN_OK);
        all.wholes += (double)count;
    }
    return all;
}

static struct done server_takes(void *server) {
    struct done all = {sizeof stream, 0};
    size_t at, count = 0;
    tn_kind kind = TN_NONE;
    for (at = 0; at < sizeof stream; at += PIECE) {
        SURE(tn_server_feed(server, stream + at, PIECE) == TN_OK);
        while (tn_server_take(server, &kind) == TN_OK && kind != TN_NONE) {
            SURE(tn_server_text(server, buf, sizeof buf, &count) == TN_OK && count == 63);
            all.wholes++;
        }
        SURE(tn_server_pull(server, 2 * PIECE, &count) == TN_OK);
        SURE(tn_server_read(server, buf, sizeof buf, &count) == TN_OK);
    }
    return all;
}

static void fill(const char *bytes, size_t length) {
    size_t at;
    for (at = 0; at < sizeof stream; at++) stream[at] = (uint8_t)bytes[at % length];
}

static void theirs(const char *name, struct done (*once)(void *)) {
    static const telnet_telopt_t options[] = {{-1, 0, 0}};
    telnet_t *telnet = telnet_init(options, keep, 0, 0);
    tell(name, once, telnet);
    telnet_free(telnet);
}

static tn_handle started(bool is_server) {
    static const tn_flags flags = TN_STANDARD_FLAGS;
    tn_handle end = TN_HANDLE;
    SURE((is_server ? tn_server_start(&end, &flags, 255) : tn_client_start(&end, 80, 24, 255)) == TN_OK);
    return end;
}

static void ours(const char *name, tn_handle end, struct done (*once)(void *)) {
    tell(name, once, &end);
    tn_end(&end);
}

static void item_by_item(const char *name, struct done (*once)(void *)) {
    tn_handle decoder = TN_HANDLE;
    SURE(tn_decoder_start(&decoder) == TN_OK);
    ours(name, decoder, once);
}

// A server whose client agreed to what was asked, and edits where that is wished for.
static void editing(const char *name, bool local) {
    static const char answers[] = "\xff\xfb\x22\xff\xfb\x1f\xff\xfa\x1f\0\x50\0\x18\xff\xf0\xff\xfd\x03\xff\xfb\x03\xff\xfd\x01";
    static const char edits[] = "\xff\xfa\x22\x01\x07\xff\xf0\xff\xfe\x01";
    tn_handle server = started(true);
    bool sent = false;
    SURE(tn_server_feed(&server, (const uint8_t *)answers, sizeof answers - 1) == TN_OK);
    if (local) {
        SURE(tn_server_wish(&server, true, &sent) == TN_OK && sent);
        SURE(tn_server_feed(&server, (const uint8_t *)edits, sizeof edits - 1) == TN_OK);
    }
    ours(name, server, server_takes);
}

int main(void) {
    static const char line[] = "the quick brown fox jumps over the lazy dog, and all is as was\r\n";
    static const char keys[] = "the quick brown fox jumps over the lazy dog, and all is as was\r";
    static const char text[] = "the quick brown fox jumps over the lazy dog, and all is as was.\n";
    static const char mix[] = "ab\xff\xff" "cd\r\0ef\xff\xfb\x01gh\xff\xf1ij\xff\xfa\x1f\0\x50\0\x18\xff\xf0kl\r\n";
    fill("x", 1);
    ours("tn: receiving plain text", started(false), client_shows);
    theirs("libtelnet: receiving plain text", recv_theirs);
    item_by_item("tn: receiving plain text, item by item", decoder_gives);
    item_by_item("tn: receiving plain text, in runs", decoder_gives_runs);
    ours("tn: sending plain text", started(true), server_sends);
    theirs("libtelnet: sending plain text", send_theirs);
    fill(line, sizeof line - 1);
    ours("tn: receiving lines of 64", started(false), client_shows);
    theirs("libtelnet: receiving lines of 64", recv_theirs);
    item_by_item("tn: receiving lines of 64, item by item", decoder_gives);
    item_by_item("tn: receiving lines of 64, in runs", decoder_gives_runs);
    editing("tn: a server takes edited lines", true);
    fill(mix, sizeof mix - 1);
    ours("tn: receiving a mix of escapes", started(false), client_shows);
    theirs("libtelnet: receiving a mix of escapes", recv_theirs);
    item_by_item("tn: receiving a mix of escapes, item by item", decoder_gives);
    item_by_item("tn: receiving a mix of escapes, in runs", decoder_gives_runs);
    fill(text, sizeof text - 1);
    ours("tn: sending lines of 64", started(true), server_sends);
    theirs("libtelnet: sending lines of 64", print_theirs);
    fill(keys, sizeof keys); // CR NUL ends a line that is typed
    editing("tn: a server edits keys", false);
    return 0;
}
