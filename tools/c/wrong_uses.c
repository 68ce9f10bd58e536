/* wrong_uses: each call of tn.h on a handle that it is not for, of an end that has failed, and with no bytes, at a null pointer too.
 * Only with TN_UNTYPED do such uses compile, as any did with version 1.0.
 *
 * It is run by tools/c/check, which sees that each call of the header stands in CALLS or in STARTS.
 */
#define TN_UNTYPED
#include "trial.h"

enum { NOTHING, LINE, DECODER, SERVER, CLIENT };

/* What a call is given to write to. */
struct given {
    uint8_t buf[8];
    size_t count;
    tn_effect effect;
    tn_option_state state;
    uint16_t width, height;
    uint8_t mode;
    uint32_t bits;
    bool yes;
    tn_item item;
    const uint8_t *at;
};

static const struct given blank = { "unread.", 77, TN_KILLED, TN_OPTION_WANT_NO, 77, 77, 77, 77, true,
                                    { TN_WORD, 77, 77, 77 }, (const uint8_t *)"at" };

static bool is_blank(const struct given *g)
{
    return memcmp(g->buf, blank.buf, sizeof blank.buf) == 0 && g->count == 77 && g->effect == TN_KILLED && g->state == TN_OPTION_WANT_NO && g->width == 77
        && g->height == 77 && g->mode == 77 && g->bits == 77 && g->yes && g->item.kind == TN_WORD && g->item.code == 77
        && g->item.option == 77 && g->item.length == 77 && g->at == blank.at;
}

#define TO_BUF g->buf, sizeof g->buf, &g->count
#define BYTES (const uint8_t *)"ab", 2

/* Which kind of handle each call is for, its name behind tn_, and what it is called with. */
#define CALLS(X) \
    X(LINE, line_key, (h, 'a', &g->effect)) \
    X(LINE, line_text, (h, TO_BUF)) \
    X(LINE, line_half, (h, TO_BUF)) \
    X(LINE, line_echo, (h, TO_BUF)) \
    X(LINE, line_set_flags, (h, &standard)) \
    X(LINE, line_set_char, (h, TN_CHAR_EOL, 7)) \
    X(LINE, line_char, (h, TN_CHAR_EOL, &g->width)) \
    X(DECODER, decoder_feed, (h, BYTES)) \
    X(DECODER, decoder_take, (h, &g->item)) \
    X(DECODER, decoder_take_run, (h, TO_BUF)) \
    X(DECODER, decoder_parameters, (h, TO_BUF)) \
    X(SERVER, server_feed, (h, BYTES)) \
    X(SERVER, server_feed_some, (h, BYTES, &g->count)) \
    X(SERVER, server_pending, (h, &g->count)) \
    X(SERVER, server_peek, (h, &g->at, &g->count)) \
    X(SERVER, server_sent, (h, 1)) \
    X(SERVER, server_read, (h, TO_BUF)) \
    X(SERVER, server_take, (h, &g->effect)) \
    X(SERVER, server_text, (h, TO_BUF)) \
    X(SERVER, server_forget, (h)) \
    X(SERVER, server_write, (h, BYTES, &g->count)) \
    X(SERVER, server_pull, (h, 8, &g->count)) \
    X(SERVER, server_say, (h, BYTES, &g->count)) \
    X(SERVER, server_wish, (h, true, &g->yes)) \
    X(SERVER, server_set_char, (h, TN_CHAR_EOL, 7)) \
    X(SERVER, server_set_echo, (h, false)) \
    X(SERVER, server_set_mask, (h, BYTES)) \
    X(SERVER, server_clear_mask, (h)) \
    X(SERVER, server_waiting, (h, 0, &g->effect)) \
    X(SERVER, server_waiting_text, (h, 0, TO_BUF)) \
    X(SERVER, server_signal_waiting, (h, &g->effect)) \
    X(SERVER, server_changes, (h, &g->bits)) \
    X(SERVER, server_size, (h, &g->width, &g->height)) \
    X(SERVER, server_mode, (h, &g->mode)) \
    X(SERVER, server_asked, (h, &g->mode)) \
    X(SERVER, server_half, (h, TO_BUF)) \
    X(SERVER, server_char, (h, TN_CHAR_EOL, &g->width)) \
    X(SERVER, server_option, (h, true, 1, &g->state)) \
    X(SERVER, server_failed, (h, &g->yes)) \
    X(SERVER, server_own, (h, 201)) \
    X(SERVER, server_take_own, (h, &g->item)) \
    X(SERVER, server_own_parameters, (h, TO_BUF)) \
    X(SERVER, server_say_own, (h, 201, 251)) \
    X(SERVER, server_say_own_sub, (h, 201, BYTES)) \
    X(CLIENT, client_key, (h, 'a')) \
    X(CLIENT, client_new_line, (h)) \
    X(CLIENT, client_feed, (h, BYTES)) \
    X(CLIENT, client_pending, (h, &g->count)) \
    X(CLIENT, client_read, (h, TO_BUF)) \
    X(CLIENT, client_screen_pending, (h, &g->count)) \
    X(CLIENT, client_screen, (h, TO_BUF)) \
    X(CLIENT, client_resize, (h, 132, 50)) \
    X(CLIENT, client_propose, (h, TN_CHAR_EOL, 7)) \
    X(CLIENT, client_send, (h, TN_COMMAND_AYT)) \
    X(CLIENT, client_mode, (h, &g->mode)) \
    X(CLIENT, client_half, (h, TO_BUF)) \
    X(CLIENT, client_ahead, (h, &g->width)) \
    X(CLIENT, client_counts, (h, &g->width, &g->height)) \
    X(CLIENT, client_char, (h, TN_CHAR_EOL, &g->width)) \
    X(CLIENT, client_option, (h, true, 1, &g->state)) \
    X(CLIENT, client_failed, (h, &g->yes)) \
    X(CLIENT, client_own, (h, 201)) \
    X(CLIENT, client_take_own, (h, &g->item)) \
    X(CLIENT, client_own_parameters, (h, TO_BUF)) \
    X(CLIENT, client_say_own, (h, 201, 251)) \
    X(CLIENT, client_say_own_sub, (h, 201, BYTES))

/* A call that gives nothing there, and counts so many bytes. */
#define COUNTS(count_, ...) \
    do { \
        g.count = 77; \
        SURE(__VA_ARGS__ == TN_OK && g.count == count_); \
    } while (0)

#define STARTS(X) \
    X(LINE, line_start, (h, &standard, limit)) \
    X(DECODER, decoder_start, (h)) \
    X(SERVER, server_start, (h, &standard, limit)) \
    X(SERVER, server_start_lines, (h, &standard, limit)) \
    X(CLIENT, client_start, (h, 80, 24, limit))

#define FREES(X) \
    X(LINE, line_free, (h)) \
    X(DECODER, decoder_free, (h)) \
    X(SERVER, server_free, (h)) \
    X(CLIENT, client_free, (h))

#define DEFINE_CALL(kind, name, arguments) \
    static tn_code name(tn_handle *h, struct given *g) { (void)g; return tn_##name arguments; }
#define DEFINE_START(kind, name, arguments) \
    static tn_code name(tn_handle *h, uint16_t limit) { (void)limit; return tn_##name arguments; }
#define DEFINE_FREE(kind, name, arguments) \
    static void name(tn_handle *h) { tn_##name arguments; }
#define ROW(kind, name, arguments) { kind, #name, name },

CALLS(DEFINE_CALL)
STARTS(DEFINE_START)
FREES(DEFINE_FREE)

static const struct {
    int kind;
    const char *name;
    tn_code (*call)(tn_handle *h, struct given *g);
} rows[] = { CALLS(ROW) };

static const struct {
    int kind;
    const char *name;
    tn_code (*start)(tn_handle *h, uint16_t limit);
} starts[] = { STARTS(ROW) };

static const struct {
    int kind;
    const char *name;
    void (*free)(tn_handle *h);
} frees[] = { FREES(ROW) };

#define COUNT(table) (sizeof table / sizeof *table)

/* A call that counts no bytes. */
#define NONE(...) \
    do { \
        g.count = 77; \
        SURE(__VA_ARGS__ == TN_OK && g.count == 0); \
    } while (0)

/* A handle that holds this, after a byte of it. */
static tn_handle holding(int kind)
{
    tn_handle h = TN_HANDLE;
    tn_effect effect = TN_NONE;
    switch (kind) {
    case LINE:
        SURE(tn_line_start(&h, &standard, 255) == TN_OK && tn_line_key(&h, 'z', &effect) == TN_OK);
        break;
    case DECODER:
        SURE(tn_decoder_start(&h) == TN_OK && tn_decoder_feed(&h, (const uint8_t *)"z", 1) == TN_OK);
        break;
    case SERVER:
        SURE(tn_server_start(&h, &standard, 255) == TN_OK && tn_server_feed(&h, (const uint8_t *)"z", 1) == TN_OK);
        break;
    case CLIENT:
        SURE(tn_client_start(&h, 80, 24, 255) == TN_OK && tn_client_key(&h, 'z') == TN_OK);
        break;
    }
    return h;
}

/* The handle holds what holding gave it. */
static void is_as_it_was(tn_handle *h, int kind)
{
    uint8_t buf[8] = { 0 };
    size_t count = 0, shown = 0;
    tn_item item = { TN_NO_ITEM, 0, 0, 0 };
    switch (kind) {
    case NOTHING:
        SURE(h->tn_private == NULL);
        break;
    case LINE:
        SURE(tn_line_half(h, buf, sizeof buf, &count) == TN_OK && count == 1 && buf[0] == 'z');
        break;
    case DECODER:
        SURE(tn_decoder_take(h, &item) == TN_OK && item.kind == TN_BYTE && item.code == 'z');
        SURE(tn_decoder_take(h, &item) == TN_OK && item.kind == TN_NO_ITEM);
        break;
    case SERVER:
        SURE(tn_server_half(h, buf, sizeof buf, &count) == TN_OK && count == 1 && buf[0] == 'z');
        SURE(tn_server_pending(h, &count) == TN_OK && count == 15);
        SURE(tn_server_pull(h, 8, &count) == TN_OK && count == 0); /* the client echoes */
        break;
    case CLIENT:
        SURE(tn_client_pending(h, &count) == TN_OK && tn_client_screen_pending(h, &shown) == TN_OK && count == 1 && shown == 1);
        break;
    }
}

/* Each call but those of its kind is refused, and each start. Nothing is written, and the handle holds what it held. */
static void refuses_others(tn_handle h, int kind)
{
    const tn_code wanted = kind == NOTHING ? TN_NOT_STARTED : TN_OTHER_KIND;
    for (size_t i = 0; i < COUNT(rows); i++) {
        struct given g = blank;
        if (rows[i].kind == kind)
            continue;
        if (rows[i].call(&h, &g) != wanted || !is_blank(&g)) {
            fprintf(stderr, "wrong_uses: tn_%s of kind %d\n", rows[i].name, kind);
            exit(3);
        }
    }
    for (size_t i = 0; i < COUNT(starts) && kind != NOTHING; i++)
        SURE(starts[i].start(&h, 255) == TN_STARTED && starts[i].start(&h, 1) == TN_STARTED);
    is_as_it_was(&h, kind);
    tn_end(&h);
}

/* A limit that no line has is refused, and leaves a handle that holds nothing. */
static void refuses_limits(void)
{
    static const uint16_t limits[] = { 0, 1, 254, 4096, 65535 };
    tn_handle h = TN_HANDLE;
    for (size_t i = 0; i < COUNT(starts); i++) {
        for (size_t k = 0; k < COUNT(limits) && starts[i].kind != DECODER; k++)
            SURE(starts[i].start(&h, limits[k]) == TN_NO_LIMIT && h.tn_private == NULL);
        SURE(starts[i].start(&h, 4095) == TN_OK && h.tn_private != NULL);
        tn_end(&h);
        SURE(h.tn_private == NULL);
        tn_end(&h);
    }
}

/* Each call of _free frees whatever is held, and does nothing where nothing is. */
static void frees_all(void)
{
    for (int kind = NOTHING; kind <= CLIENT; kind++) {
        for (size_t i = 0; i < COUNT(frees); i++) {
            tn_handle h = holding(kind);
            frees[i].free(&h);
            SURE(h.tn_private == NULL && live == 0);
            frees[i].free(&h);
            frees[i].free(NULL);
        }
    }
}

/* With room for no byte, or none at all, nothing is copied, and where no byte comes nothing is done. */
static void takes_no_bytes(uint8_t *at)
{
    tn_handle line = holding(LINE), decoder = holding(DECODER), server = holding(SERVER), client = holding(CLIENT);
    struct given g = blank;
    COUNTS(1, tn_line_half(&line, at, 0, &g.count));
    COUNTS(1, tn_line_echo(&line, at, 0, &g.count));
    NONE(tn_line_text(&line, at, 0, &g.count));
    SURE(tn_decoder_feed(&decoder, at, 0) == TN_OK);
    NONE(tn_decoder_parameters(&decoder, at, 0, &g.count));
    NONE(tn_decoder_take_run(&decoder, at, 0, &g.count));
    SURE(tn_server_feed(&server, at, 0) == TN_OK);
    NONE(tn_server_read(&server, at, 0, &g.count));
    NONE(tn_server_text(&server, at, 0, &g.count));
    NONE(tn_server_write(&server, at, 0, &g.count));
    NONE(tn_server_pull(&server, 0, &g.count));
    NONE(tn_server_feed_some(&server, at, 0, &g.count));
    NONE(tn_server_say(&server, at, 0, &g.count));
    SURE(tn_server_sent(&server, 0) == TN_OK);
    COUNTS(1, tn_server_half(&server, at, 0, &g.count));
    COUNTS(2, tn_put_byte(255, at, 0, &g.count));
    COUNTS(5, tn_put_sub(24, at, 0, NULL, 0, &g.count));
    NONE(tn_server_waiting_text(&server, 0, at, 0, &g.count));
    SURE(tn_server_set_mask(&server, at, 0) == TN_NOT_ON);
    SURE(tn_client_feed(&client, at, 0) == TN_OK);
    NONE(tn_client_read(&client, at, 0, &g.count));
    NONE(tn_client_screen(&client, at, 0, &g.count));
    NONE(tn_client_half(&client, at, 0, &g.count));
    NONE(tn_server_own_parameters(&server, at, 0, &g.count));
    NONE(tn_client_own_parameters(&client, at, 0, &g.count));
    SURE(tn_server_say_own_sub(&server, 201, at, 0) == TN_NOT_OWNED);
    g.count = 77;
    SURE(is_blank(&g));
    is_as_it_was(&line, LINE), is_as_it_was(&decoder, DECODER);
    is_as_it_was(&server, SERVER), is_as_it_was(&client, CLIENT);
    tn_end(&line), tn_end(&decoder), tn_end(&server), tn_end(&client);
}

/* The answer of a call of an end that has failed, and that owns no option: those that only read go on. */
static tn_code answer_then(const char *name, bool (*is_refused_then)(const char *))
{
    if (strstr(name, "_say_own"))
        return TN_NOT_OWNED;
    if (strstr(name, "_own") && !strstr(name, "_take_own") && !strstr(name, "_own_parameters"))
        return TN_TOO_LATE;
    return is_refused_then(name) ? TN_FAILED : TN_OK;
}

/* The answer of each call of an end that has failed, in the order of CALLS. */
static void fails(tn_handle h, int kind, bool (*is_refused_then)(const char *))
{
    for (size_t i = 0; i < COUNT(rows); i++) {
        struct given g = blank;
        tn_code wanted = answer_then(rows[i].name, is_refused_then);
        if (rows[i].kind != kind)
            continue;
        if (rows[i].call(&h, &g) != wanted || (wanted != TN_OK && !is_blank(&g))) {
            fprintf(stderr, "wrong_uses: tn_%s of a failed end\n", rows[i].name);
            exit(3);
        }
    }
    tn_end(&h);
}

static bool is_refused_by_server(const char *name)
{
    return strstr(name, "_feed") || strstr(name, "_wish") || strstr(name, "_set_") || strstr(name, "_clear_");
}

static bool is_refused_by_client(const char *name)
{
    return strstr(name, "_feed") || strstr(name, "_key") || strstr(name, "_new_line") || strstr(name, "_resize")
        || strstr(name, "_propose") || strstr(name, "_send");
}

static bool is_refused_by_decoder(const char *name)
{
    return strstr(name, "_feed") != NULL;
}

/* One line more than may wait, where memory would be refused too: the server fails, and what waits is still taken. */
static void fails_too_far_ahead(void)
{
    tn_handle server = holding(SERVER);
    tn_kind kind = TN_NONE;
    bool failed = false;
    for (int i = 0; i < 1024; i++)
        SURE(tn_server_feed(&server, (const uint8_t *)"\r\0", 2) == TN_OK);
    refused_call = calls + 1;
    SURE(tn_server_feed(&server, (const uint8_t *)"\r\0", 2) == TN_TOO_FAR_AHEAD);
    refused_call = 0;
    SURE(tn_server_failed(&server, &failed) == TN_OK && failed);
    for (int i = 0; i < 1000; i++)
        SURE(tn_server_take(&server, &kind) == TN_OK && kind == TN_TEXT);
    fails(server, SERVER, is_refused_by_server);
}

/* A feed is refused memory: the end fails, and says so from then on. */
static void fails_without_memory(void)
{
    static uint8_t text[4096];
    tn_handle server = holding(SERVER), client = holding(CLIENT), decoder = holding(DECODER);
    memset(text, 255, sizeof text);
    refused_call = calls + 1;
    SURE(tn_client_feed(&client, text, sizeof text) == TN_MEMORY);
    refused_call = calls + 1;
    SURE(tn_decoder_feed(&decoder, text, sizeof text) == TN_MEMORY);
    refused_call = calls + 1;
    SURE(tn_server_feed(&server, (const uint8_t *)"\r\0", 2) == TN_MEMORY);
    refused_call = 0;
    fails(client, CLIENT, is_refused_by_client);
    fails(decoder, DECODER, is_refused_by_decoder);
    fails(server, SERVER, is_refused_by_server);
}

int main(void)
{
    tn_handle none = TN_HANDLE, ended = holding(SERVER);
    tn_end(&ended);
    refuses_others(none, NOTHING);
    refuses_others(ended, NOTHING);
    SURE(live == 0);
    for (int kind = LINE; kind <= CLIENT; kind++)
        refuses_others(holding(kind), kind);
    frees_all();
    refuses_limits();
    takes_no_bytes((uint8_t[1]) { 0 });
    takes_no_bytes(NULL);
    fails_too_far_ahead();
    fails_without_memory();
    SURE(live == 0);
    printf("%zu calls on handles that they are not for\n", COUNT(rows));
    return 0;
}
