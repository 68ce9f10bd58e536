/* Trials of tn.h, for tools/c/check.
 *
 *   trials worked     openings, answers and entries that were worked out by hand
 *   trials refused    the same session again and again, with each allocation refused in turn
 *   trials server SEED, trials parts SEED      read a client's stream, and print its entries as `tn replay` does: by a
 *                     server end, which owns two options of the stream by chance, and by a decoder with a line; it is cut in
 *                     pieces as SEED has it
 */
#include "trial.h"

#include <pthread.h>

static uint8_t buf[70000];

/* What waits to be sent is exactly this. */
static void says(tn_server *server, const char *bytes, size_t length)
{
    size_t count = 0, wanted = 0;
    SURE(tn_server_pending(server, &wanted) == TN_OK && wanted == length);
    SURE(tn_server_read(server, buf, sizeof buf, &count) == TN_OK && count == length);
    SURE(memcmp(buf, bytes, length) == 0);
}

#define SAYS(server, text) says(server, text, sizeof text - 1)
#define FEED(server, text) SURE(tn_server_feed(server, (const uint8_t *)text, sizeof text - 1) == TN_OK)

/* What a client has to send and to show is exactly this. */
static void client_says(tn_client *client, const char *sent, size_t sent_length, const char *shown)
{
    size_t count = 0;
    SURE(tn_client_pending(client, &count) == TN_OK && count == sent_length);
    SURE(tn_client_read(client, buf, sizeof buf, &count) == TN_OK && count == sent_length);
    SURE(memcmp(buf, sent, sent_length) == 0);
    SURE(tn_client_screen_pending(client, &count) == TN_OK && count == strlen(shown));
    SURE(tn_client_screen(client, buf, sizeof buf, &count) == TN_OK && memcmp(buf, shown, count) == 0);
}

#define CLIENT_SAYS(client, sent, shown) client_says(client, sent, sizeof sent - 1, shown)

/* A line's flags and special characters are changed with a half line of 254 bytes that stays. */
static void worked_settings(tn_line *line)
{
    tn_flags flags = standard;
    tn_effect effect = TN_DROPPED;
    uint16_t value = 77;
    size_t count = 77;
    SURE(tn_line_char(line, TN_CHAR_INTR, &value) == TN_OK && value == 3);
    value = 77;
    SURE(tn_line_char(line, 0, &value) == TN_NO_FUNCTION && value == 77);
    SURE(tn_line_char(line, TN_CHAR_EOL, &value) == TN_OK && value == TN_NO_CHAR);
    SURE(tn_line_set_char(line, 0, 5) == TN_NO_FUNCTION && tn_line_set_char(line, 1, 5) == TN_NOT_SETTABLE);
    SURE(tn_line_set_char(line, TN_CHAR_INTR, 13) == TN_RESERVED && tn_line_set_char(line, TN_CHAR_INTR, 4) == TN_TAKEN);
    SURE(tn_line_set_char(line, TN_CHAR_ERASE, 'x') == TN_OK);
    SURE(tn_line_key(line, 'x', &effect) == TN_OK && effect == TN_ERASED);
    SURE(tn_line_set_char(line, TN_CHAR_ERASE, TN_NO_CHAR) == TN_OK);
    SURE(tn_line_half(line, buf, sizeof buf, &count) == TN_OK && count == 253);
    flags.isig = false;
    SURE(tn_line_set_flags(line, &flags) == TN_OK);
    SURE(tn_line_key(line, 3, &effect) == TN_OK && effect == TN_KEPT);
}

static void worked_line(void)
{
    tn_line line = TN_HANDLE;
    tn_effect effect = TN_DROPPED;
    size_t count = 77;
    SURE(tn_line_key(&line, 'a', &effect) == TN_NOT_STARTED && effect == TN_DROPPED);
    SURE(tn_line_start(&line, &standard, 254) == TN_NO_LIMIT && line.tn_private == NULL);
    SURE(tn_line_start(&line, &standard, 4096) == TN_NO_LIMIT);
    SURE(tn_line_start(&line, &standard, 255) == TN_OK);
    SURE(tn_line_start(&line, &standard, 255) == TN_STARTED);
    for (const char *key = "lss"; *key; key++)
        SURE(tn_line_key(&line, (uint8_t)*key, &effect) == TN_OK && effect == TN_KEPT);
    SURE(tn_line_key(&line, 127, &effect) == TN_OK && effect == TN_ERASED);
    SURE(tn_line_half(&line, buf, 1, &count) == TN_OK && count == 2 && buf[0] == 'l');
    SURE(tn_line_echo(&line, buf, sizeof buf, &count) == TN_OK && count == 3 && memcmp(buf, "\b \b", 3) == 0);
    SURE(tn_line_half(&line, buf, sizeof buf, &count) == TN_OK && count == 2);
    SURE(tn_line_key(&line, 3, &effect) == TN_OK && effect == TN_INT);
    SURE(tn_line_echo(&line, buf, sizeof buf, &count) == TN_OK && count == 0);
    SURE(tn_line_key(&line, 13, &effect) == TN_OK && effect == TN_TEXT);
    SURE(tn_line_echo(&line, buf, sizeof buf, &count) == TN_OK && count == 2 && memcmp(buf, "\r\n", 2) == 0);
    SURE(tn_line_text(&line, buf, sizeof buf, &count) == TN_OK && count == 3 && memcmp(buf, "ls\n", 3) == 0);
    SURE(tn_line_key(&line, 4, &effect) == TN_OK && effect == TN_EOF);
    SURE(tn_line_text(&line, buf, sizeof buf, &count) == TN_OK && count == 0);
    SURE(tn_line_key(&line, 21, &effect) == TN_OK && effect == TN_KILLED);
    SURE(tn_line_key(&line, 127, &effect) == TN_OK && effect == TN_NONE);
    for (int i = 0; i < 254; i++)
        SURE(tn_line_key(&line, 'x', &effect) == TN_OK && effect == TN_KEPT);
    SURE(tn_line_key(&line, 'x', &effect) == TN_OK && effect == TN_DROPPED);
    worked_settings(&line);
    tn_line_free(&line);
    tn_line_free(NULL);
    SURE(line.tn_private == NULL && tn_line_half(&line, buf, 1, &count) == TN_NOT_STARTED && count == 0);
    tn_line_free(&line);
}

static void worked_decoder(void)
{
    static const uint8_t stream[] = "a\r\n\xff\xfb\x22\xff\xf4\xff\xfa\x1f\0\x50\xff\xff\x18\xff\xf0\r";
    static const tn_item wanted[] = { { TN_BYTE, 'a', 0, 0 },    { TN_NEWLINE, 0, 0, 0 },
                                      { TN_WORD, 251, 34, 0 },   { TN_COMMAND, 244, 0, 0 },
                                      { TN_SUBNEGOTIATION, 0, 31, 4 }, { TN_NO_ITEM, 0, 0, 0 } };
    tn_decoder decoder = TN_HANDLE;
    tn_item item = { TN_WORD, 77, 77, 77 };
    size_t count = 0;
    SURE(tn_decoder_take(&decoder, &item) == TN_NOT_STARTED && item.kind == TN_WORD);
    SURE(tn_decoder_start(&decoder) == TN_OK && tn_decoder_start(&decoder) == TN_STARTED);
    for (size_t i = 0; i + 1 < sizeof stream; i++)
        SURE(tn_decoder_feed(&decoder, stream + i, 1) == TN_OK);
    for (size_t i = 0; i < sizeof wanted / sizeof *wanted; i++) {
        SURE(tn_decoder_take(&decoder, &item) == TN_OK && item.kind == wanted[i].kind && item.code == wanted[i].code);
        SURE(item.option == wanted[i].option && item.length == wanted[i].length);
        SURE(tn_decoder_parameters(&decoder, buf, 3, &count) == TN_OK && count == item.length);
        if (item.length > 0)
            SURE(memcmp(buf, "\0\x50\xff", 3) == 0);
    }
    SURE(tn_decoder_feed(&decoder, (const uint8_t *)"\nabcde\r\n\xff\xff", 10) == TN_OK); /* the CR above ends a line with it */
    SURE(tn_decoder_take(&decoder, &item) == TN_OK && item.kind == TN_NEWLINE);
    SURE(tn_decoder_take(&decoder, &item) == TN_OK && item.kind == TN_BYTE && item.code == 'a');
    SURE(tn_decoder_take_run(&decoder, buf, 3, &count) == TN_OK && count == 3 && memcmp(buf, "bcd", 3) == 0);
    SURE(tn_decoder_take_run(&decoder, buf, 3, &count) == TN_OK && count == 1 && buf[0] == 'e');
    SURE(tn_decoder_take_run(&decoder, buf, 3, &count) == TN_OK && count == 0);
    SURE(tn_decoder_take(&decoder, &item) == TN_OK && item.kind == TN_NEWLINE);
    SURE(tn_decoder_take_run(&decoder, buf, 3, &count) == TN_OK && count == 1 && buf[0] == 255);
    SURE(tn_decoder_take(&decoder, &item) == TN_OK && item.kind == TN_NO_ITEM);
    tn_decoder_free(&decoder);
}

/* The spelling of each kind of item, into a buffer that is large enough and into one of a byte. */
static void worked_spelling(void)
{
    static const uint8_t zeros[513] = { 0 };
    static const struct {
        const char *bytes;
        size_t length;
    } wanted[] = { { "a", 1 }, { "\r\0", 2 }, { "\xff\xff", 2 }, { "\r\n", 2 }, { "\xff\xf4", 2 }, { "\xff\xfb\xff", 3 },
                   { "\xff\xfa\x1f\0\xff\xff\xff\xf0", 8 } };
    for (size_t size = sizeof buf; size > 0; size = size > 1 ? 1 : 0) {
        for (size_t i = 0; i < sizeof wanted / sizeof *wanted; i++) {
            size_t count = 77;
            tn_code code = TN_FAILED;
            memset(buf, 7, 16);
            switch (i) {
            case 0: code = tn_put_byte('a', buf, size, &count); break;
            case 1: code = tn_put_byte('\r', buf, size, &count); break;
            case 2: code = tn_put_byte(255, buf, size, &count); break;
            case 3: code = tn_put_newline(buf, size, &count); break;
            case 4: code = tn_put_command(244, buf, size, &count); break;
            case 5: code = tn_put_option(251, 255, buf, size, &count); break;
            case 6: code = tn_put_sub(31, (const uint8_t *)"\0\xff", 2, buf, size, &count); break;
            }
            SURE(code == TN_OK && count == wanted[i].length);
            SURE(memcmp(buf, wanted[i].bytes, size > count ? count : size) == 0 && (size > 1 || buf[1] == 7));
        }
    }
    {
        size_t count = 77;
        SURE(tn_put_command(240, buf, 2, &count) == TN_NO_COMMAND && tn_put_option(250, 1, buf, 3, &count) == TN_NO_COMMAND);
        SURE(tn_put_sub(1, zeros, 513, buf, sizeof buf, &count) == TN_TOO_LONG && count == 77);
        SURE(tn_put_sub(1, zeros, 512, buf, sizeof buf, &count) == TN_OK && count == 517);
        SURE(tn_version() == TN_VERSION_NUMBER && strcmp(tn_code_text(TN_TAKEN), "another function has this character") == 0);
        SURE(TN_BAD_LIMIT == TN_NO_LIMIT && TN_BAD_FUNCTION == TN_NO_FUNCTION);
        SURE(TN_CHAR_IN_USE == TN_TAKEN && TN_BAD_COMMAND == TN_NO_COMMAND);
        SURE(strcmp(tn_code_text(TN_OK), "done") == 0 && strcmp(tn_code_text(TN_NO_COMMAND), "no such command") == 0);
        SURE(strcmp(tn_code_text((tn_code)(TN_ITEMS_WAIT + 1)), "no code of this library") == 0);
    }
}

static void worked_server(void)
{
    tn_server server = TN_HANDLE;
    tn_kind kind = TN_DROPPED;
    tn_option_state state = TN_OPTION_WANT_NO;
    uint16_t width = 0, height = 0, value = 0;
    uint8_t mode = 77;
    uint32_t bits = 77;
    size_t count = 77;
    bool sent = false, failed = true;
    SURE(tn_server_feed(&server, buf, 0) == TN_NOT_STARTED && tn_server_take(&server, &kind) == TN_NOT_STARTED);
    SURE(tn_server_start(&server, &standard, 255) == TN_OK);
    SAYS(&server, "\xff\xfd\x22\xff\xfd\x1f\xff\xfb\x03\xff\xfd\x03\xff\xfb\x01");
    SURE(tn_server_changes(&server, &bits) == TN_OK && bits == 0);
    FEED(&server, "\xff\xfd\x01\xff\xfd\x03"); /* DO ECHO, DO SUPPRESS-GO-AHEAD */
    SURE(tn_server_changes(&server, &bits) == TN_OK && bits == TN_CHANGED_OPTION);
    FEED(&server, "lss\x7f -l\r");
    SURE(tn_server_take(&server, &kind) == TN_OK && kind == TN_NONE);
    FEED(&server, "\0");
    SURE(tn_server_waiting(&server, 0, &kind) == TN_OK && kind == TN_TEXT);
    SURE(tn_server_waiting(&server, 1, &kind) == TN_OK && kind == TN_NONE);
    SURE(tn_server_waiting_text(&server, 0, buf, 4, &count) == TN_OK && count == 6 && memcmp(buf, "ls -", 4) == 0);
    SURE(tn_server_waiting_text(&server, 1, buf, sizeof buf, &count) == TN_OK && count == 0);
    SURE(tn_server_take(&server, &kind) == TN_OK && kind == TN_TEXT);
    SURE(tn_server_text(&server, buf, 4, &count) == TN_OK && count == 6 && memcmp(buf, "ls -", 4) == 0);
    SURE(tn_server_text(&server, buf, sizeof buf, &count) == TN_OK && count == 6 && memcmp(buf, "ls -l\n", 6) == 0);
    SURE(tn_server_forget(&server) == TN_OK);
    SURE(tn_server_text(&server, buf, sizeof buf, &count) == TN_OK && count == 6 && memcmp(buf, "\0\0\0\0\0", 6) == 0);
    SURE(tn_server_write(&server, (const uint8_t *)"a\n", 2, &count) == TN_OK && count == 2);
    SURE(tn_server_pull(&server, 4096, &count) == TN_OK && count == 12);
    SAYS(&server, "lss\b \b -l\r\na\r\n");
    FEED(&server, "\xff\xfb\x22"); /* WILL LINEMODE: the table, and MODE 0 is in force */
    SURE(tn_server_pending(&server, &count) == TN_OK && count > 0);
    SURE(tn_server_read(&server, buf, 5, &count) == TN_OK && count == 5 && memcmp(buf, "\xff\xfa\x22\x03", 4) == 0);
    SURE(tn_server_read(&server, buf, sizeof buf, &count) == TN_OK);
    SURE(tn_server_wish(&server, true, &sent) == TN_OK && sent);
    SAYS(&server, "\xff\xfa\x22\x01\x03\xff\xf0\xff\xfc\x01"); /* MODE EDIT TRAPSIG, and the client echoes: WONT ECHO */
    SURE(tn_server_wish(&server, true, &sent) == TN_OK && !sent);
    SURE(tn_server_asked(&server, &mode) == TN_OK && mode == (TN_MODE_EDIT | TN_MODE_TRAPSIG));
    SURE(tn_server_mode(&server, &mode) == TN_OK && mode == 0);
    FEED(&server, "\xff\xfa\x22\x01\x07\xff\xf0"); /* the client acknowledges it */
    SURE(tn_server_mode(&server, &mode) == TN_OK && mode == (TN_MODE_EDIT | TN_MODE_TRAPSIG));
    SURE(tn_server_changes(&server, &bits) == TN_OK && bits == (TN_CHANGED_MODE | TN_CHANGED_OPTION));
    SURE(tn_server_changes(&server, &bits) == TN_OK && bits == 0);
    FEED(&server, "\xff\xfb\x1f\xff\xfa\x1f\0\x50\0\x18\xff\xf0");
    SURE(tn_server_size(&server, &width, &height) == TN_OK && width == 80 && height == 24);
    SURE(tn_server_changes(&server, &bits) == TN_OK && bits == (TN_CHANGED_SIZE | TN_CHANGED_OPTION));
    SURE(tn_server_option(&server, false, 34, &state) == TN_OK && state == TN_OPTION_YES);
    SURE(tn_server_option(&server, true, 3, &state) == TN_OK && state == TN_OPTION_YES);
    SURE(tn_server_option(&server, true, 1, &state) == TN_OK && state == TN_OPTION_WANT_NO);
    SURE(tn_server_set_char(&server, 0, 5) == TN_NO_FUNCTION && tn_server_set_char(&server, 1, 5) == TN_NOT_SETTABLE);
    SURE(tn_server_set_char(&server, TN_CHAR_INTR, 10) == TN_RESERVED);
    SURE(tn_server_set_char(&server, TN_CHAR_INTR, 4) == TN_TAKEN);
    SURE(tn_server_set_char(&server, TN_CHAR_INTR, 5) == TN_OK);
    SURE(tn_server_char(&server, TN_CHAR_INTR, &value) == TN_OK && value == 5);
    SURE(tn_server_changes(&server, &bits) == TN_OK && bits == TN_CHANGED_CHAR);
    SURE(tn_server_set_char(&server, TN_CHAR_INTR, TN_NO_CHAR) == TN_OK);
    SURE(tn_server_char(&server, TN_CHAR_INTR, &value) == TN_OK && value == TN_NO_CHAR);
    SURE(tn_server_set_mask(&server, buf, 33) == TN_TOO_LONG);
    memset(buf, 0, 32);
    SURE(tn_server_set_mask(&server, buf, 32) == TN_OK && tn_server_clear_mask(&server) == TN_OK);
    SURE(tn_server_set_echo(&server, false) == TN_OK);
    FEED(&server, "a\xff\xed"); /* SUSP is a signal, and flushes nothing that C sees */
    SURE(tn_server_signal_waiting(&server, &kind) == TN_OK && kind == TN_TSTP);
    SURE(tn_server_half(&server, buf, sizeof buf, &count) == TN_OK);
    SURE(tn_server_failed(&server, &failed) == TN_OK && !failed);
    tn_server_free(&server);
}

/* BREAK is an interrupt, as control-C and IP are, and a change, which they are not; also if an option is owned. */
static void worked_breaks(void)
{
    for (int owned = 0; owned < 2; owned++) {
        tn_server server = TN_HANDLE;
        tn_kind kind = TN_DROPPED;
        uint32_t bits = 77;
        SURE(tn_server_start(&server, &standard, 255) == TN_OK && (owned == 0 || tn_server_own(&server, 201) == TN_OK));
        FEED(&server, "\x03\xff\xf4\xff");
        for (int i = 0; i < 2; i++)
            SURE(tn_server_take(&server, &kind) == TN_OK && kind == TN_INT);
        SURE(tn_server_changes(&server, &bits) == TN_OK && bits == 0);
        FEED(&server, "\xf3"); /* it ends IAC BRK */
        SURE(tn_server_take(&server, &kind) == TN_OK && kind == TN_INT);
        SURE(tn_server_changes(&server, &bits) == TN_OK && bits == TN_CHANGED_BREAK);
        SURE(tn_server_changes(&server, &bits) == TN_OK && bits == 0);
        FEED(&server, "\xff\xf3\xff\xf3\xff\xfd\x01"); /* IAC BRK twice, DO ECHO */
        SURE(tn_server_changes(&server, &bits) == TN_OK && bits == (TN_CHANGED_BREAK | TN_CHANGED_OPTION));
        SURE(tn_server_changes(&server, &bits) == TN_OK && bits == 0);
        tn_server_free(&server);
    }
}

/* Output is spelled in one step with the echo, and sent from where it stands: a part, and then the rest. */
static void worked_output(void)
{
    tn_server server = TN_HANDLE;
    const uint8_t *bytes = NULL;
    size_t count = 77;
    SURE(tn_server_start(&server, &standard, 255) == TN_OK);
    SURE(tn_server_peek(&server, &bytes, &count) == TN_OK && count == 15 && memcmp(bytes, "\xff\xfd\x22", 3) == 0);
    SURE(tn_server_sent(&server, 12) == TN_OK);
    SURE(tn_server_peek(&server, &bytes, &count) == TN_OK && count == 3 && memcmp(bytes, "\xff\xfb\x01", 3) == 0);
    SURE(tn_server_sent(&server, 77) == TN_OK && tn_server_peek(&server, &bytes, &count) == TN_OK && count == 0);
    FEED(&server, "\xff\xfd\x01" "ab"); /* DO ECHO */
    SURE(tn_server_say(&server, (const uint8_t *)"c\n\xff", 3, &count) == TN_OK && count == 3);
    SAYS(&server, "abc\r\n\xff\xff");
    memset(buf, 'x', 5000);
    SURE(tn_server_say(&server, buf, 5000, &count) == TN_OK && count == 4096);
    SURE(tn_server_say(&server, buf, 904, &count) == TN_OK && count == 904);
    SURE(tn_server_peek(&server, &bytes, &count) == TN_OK && count == 5000 && memcmp(bytes, buf, 5000) == 0);
    SURE(tn_server_say(&server, NULL, 0, &count) == TN_OK && count == 0);
    refused_call = calls + 1;
    memset(buf, '\n', 5000);
    SURE(tn_server_say(&server, buf, 5000, &count) == TN_MEMORY && count == 4096);
    refused_call = 0;
    SURE(tn_server_say(&server, NULL, 0, &count) == TN_OK && tn_server_pending(&server, &count) == TN_OK && count == 5000 + 2 * 4096);
    tn_server_free(&server);
}

/* An end for clients that edit lines themselves asks for LINEMODE and NAWS only, and does not echo their lines. WILL ECHO hides what they
 * type while the flag ECHO is clear. With LINEMODE it echoes, unless the client edits. */
static void worked_lines(void)
{
    tn_server server = TN_HANDLE;
    tn_kind kind = TN_NONE;
    size_t count = 77;
    SURE(tn_server_start_lines(&server, &standard, 255) == TN_OK);
    SAYS(&server, "\xff\xfd\x22\xff\xfd\x1f");
    FEED(&server, "ls\r\n");
    SURE(tn_server_take(&server, &kind) == TN_OK && kind == TN_TEXT);
    SURE(tn_server_text(&server, buf, sizeof buf, &count) == TN_OK && count == 3 && memcmp(buf, "ls\n", 3) == 0);
    SURE(tn_server_pull(&server, 4096, &count) == TN_OK && count == 0);
    SURE(tn_server_set_echo(&server, false) == TN_OK);
    SAYS(&server, "\xff\xfb\x01"); /* WILL ECHO */
    FEED(&server, "\xff\xfd\x01" "secret\r\n"); /* DO ECHO */
    SURE(tn_server_pull(&server, 4096, &count) == TN_OK && count == 0);
    SURE(tn_server_set_echo(&server, true) == TN_OK);
    SAYS(&server, "\xff\xfc\x01"); /* WONT ECHO */
    FEED(&server, "\xff\xfe\x01\xff\xfb\x22"); /* DONT ECHO, WILL LINEMODE */
    SURE(tn_server_read(&server, buf, sizeof buf, &count) == TN_OK && count > 3 && memcmp(buf + count - 3, "\xff\xfb\x01", 3) == 0);
    tn_server_free(&server);
}

/* A flood of lines is taken as far as each finds room: no more than 511 may wait before a piece of 512 bytes. */
static void worked_some(void)
{
    tn_server server = TN_HANDLE;
    tn_kind kind = TN_DROPPED;
    size_t taken = 77, lines = 0;
    bool failed = true;
    SURE(tn_server_start(&server, &standard, 255) == TN_OK);
    memset(buf, '\n', 4096);
    SURE(tn_server_feed_some(&server, buf, 511, &taken) == TN_OK && taken == 511);
    SURE(tn_server_feed_some(&server, buf, 4096, &taken) == TN_OK && taken == 512);
    SURE(tn_server_feed_some(&server, buf, 4096, &taken) == TN_OK && taken == 0);
    for (int i = 0; i < 512; i++)
        SURE(tn_server_take(&server, &kind) == TN_OK && kind == TN_TEXT);
    SURE(tn_server_waiting(&server, 510, &kind) == TN_OK && kind == TN_TEXT);
    SURE(tn_server_waiting(&server, 511, &kind) == TN_OK && kind == TN_NONE);
    SURE(tn_server_feed_some(&server, buf, 4096, &taken) == TN_OK && taken == 512);
    SURE(tn_server_failed(&server, &failed) == TN_OK && !failed);
    while (tn_server_take(&server, &kind) == TN_OK && kind == TN_TEXT)
        lines++;
    SURE(lines == 511 + 512);
    memset(buf, '\n', 4096);
    SURE(tn_server_feed(&server, buf, 4096) == TN_TOO_FAR_AHEAD);
    taken = 77;
    SURE(tn_server_feed_some(&server, buf, 4096, &taken) == TN_FAILED && taken == 77);
    tn_server_free(&server);
}

static void worked_client(void)
{
    tn_client client = TN_HANDLE;
    uint8_t mode = 77;
    uint16_t ahead = 77, trapped = 77, plain = 77;
    size_t count = 77;
    bool failed = true;
    SURE(tn_client_start(&client, 80, 24, 255) == TN_OK);
    CLIENT_SAYS(&client, "", "");
    SURE(tn_client_propose(&client, TN_CHAR_INTR, 5) == TN_NOT_ON);
    SURE(tn_client_key(&client, 'a') == TN_OK);
    CLIENT_SAYS(&client, "a", "a");
    SURE(tn_client_counts(&client, &trapped, &plain) == TN_OK && trapped == 1 && plain == 1);
    SURE(tn_client_key(&client, 10) == TN_OK);
    CLIENT_SAYS(&client, "\n", "\r\n");
    SURE(tn_client_new_line(&client) == TN_OK);
    CLIENT_SAYS(&client, "\r\n", "\r\n");
    SURE(tn_client_feed(&client, (const uint8_t *)"\xff\xfd\x1f" "hi\r\n", 7) == TN_OK);
    CLIENT_SAYS(&client, "\xff\xfb\x1f\xff\xfa\x1f\0\x50\0\x18\xff\xf0", "hi\r\n");
    SURE(tn_client_resize(&client, 100, 24) == TN_OK);
    CLIENT_SAYS(&client, "\xff\xfa\x1f\0\x64\0\x18\xff\xf0", "");
    SURE(tn_client_send(&client, TN_COMMAND_BRK) == TN_OK && tn_client_send(&client, TN_COMMAND_AYT) == TN_OK);
    SURE(tn_client_send(&client, TN_COMMAND_IP) == TN_OK && tn_client_send(&client, TN_COMMAND_NOP) == TN_OK);
    CLIENT_SAYS(&client, "\xff\xf3\xff\xf6\xff\xf4\xff\xf1", "");
    for (uint32_t number = 0; number < 1024; number++) /* also what would be a command's byte if it were cut to one */
        if (number != 241 && number != 243 && number != 244 && number != 246)
            SURE(tn_client_send(&client, (tn_command)number) == TN_NO_COMMAND);
    CLIENT_SAYS(&client, "", "");
    SURE(tn_client_mode(&client, &mode) == TN_OK && mode == 0);
    SURE(tn_client_half(&client, buf, sizeof buf, &count) == TN_OK && count == 0);
    SURE(tn_client_ahead(&client, &ahead) == TN_OK && ahead == 0);
    SURE(tn_client_failed(&client, &failed) == TN_OK && !failed);
    tn_client_free(&client);
}

/* The first item of owned options is this, or none waits. */
static void takes_own(tn_server *server, tn_item_kind kind, uint8_t code, uint8_t option, const char *parameters, size_t length)
{
    tn_item item = { TN_BYTE, 77, 77, 77 };
    size_t count = 77;
    SURE(tn_server_take_own(server, &item) == TN_OK && item.kind == kind && item.code == code);
    SURE(item.option == option && item.length == length);
    memset(buf, 7, 4);
    SURE(tn_server_own_parameters(server, buf, 2, &count) == TN_OK && count == length && buf[2] == 7);
    SURE(tn_server_own_parameters(server, buf, sizeof buf, &count) == TN_OK && memcmp(buf, parameters, length) == 0);
}

/* Options of one's own at a server: their items wait in order, for each cut of the stream, and the end does as it does without them. */
static void worked_own(void)
{
    static const char hello[] = "\xff\xfd\x01\xff\xfd\xc9l\xff\xfa\xc9" "Core.Hello \xff\xff\xff\xf0s\r\0\xff\xfd\x18\xff\xfd\x46\r\n";
    static const uint8_t zeros[513] = { 0 };
    for (size_t cut = 1; cut < sizeof hello; cut++) {
        tn_server server = TN_HANDLE;
        tn_kind kind = TN_DROPPED;
        tn_option_state state = TN_OPTION_WANT_NO;
        size_t count = 77;
        SURE(tn_server_start(&server, &standard, 255) == TN_OK);
        SURE(tn_server_own(&server, 201) == TN_OK && tn_server_own(&server, 70) == TN_OK);
        for (size_t i = 0; i < 4; i++)
            SURE(tn_server_own(&server, (uint8_t)"\x01\x03\x1f\x22"[i]) == TN_RESERVED);
        SURE(tn_server_read(&server, buf, sizeof buf, &count) == TN_OK && count == 15);
        for (size_t at = 0; at < sizeof hello - 1; at += cut) {
            size_t left = sizeof hello - 1 - at;
            SURE(tn_server_feed_some(&server, (const uint8_t *)hello + at, left < cut ? left : cut, &count) == TN_OK);
        }
        SURE(tn_server_own(&server, 86) == TN_TOO_LATE && tn_server_own(&server, 31) == TN_RESERVED);
        SAYS(&server, "\xff\xfc\x18"); /* WONT 24: that option is not owned */
        takes_own(&server, TN_WORD, 253, 201, "", 0);
        takes_own(&server, TN_SUBNEGOTIATION, 0, 201, "Core.Hello \xff", 12);
        takes_own(&server, TN_WORD, 253, 70, "", 0);
        takes_own(&server, TN_NO_ITEM, 0, 0, "", 0);
        SURE(tn_server_take(&server, &kind) == TN_OK && kind == TN_TEXT);
        SURE(tn_server_text(&server, buf, sizeof buf, &count) == TN_OK && count == 3 && memcmp(buf, "ls\n", 3) == 0);
        SURE(tn_server_take(&server, &kind) == TN_OK && kind == TN_TEXT && tn_server_take(&server, &kind) == TN_OK && kind == TN_NONE);
        SURE(tn_server_option(&server, true, 201, &state) == TN_OK && state == TN_OPTION_NO);
        SURE(tn_server_say_own(&server, 201, 251) == TN_OK && tn_server_say_own_sub(&server, 201, (const uint8_t *)"a\xff", 2) == TN_OK);
        SAYS(&server, "\xff\xfb\xc9\xff\xfa\xc9" "a\xff\xff\xff\xf0");
        SURE(tn_server_say_own(&server, 24, 251) == TN_NOT_OWNED && tn_server_say_own_sub(&server, 24, zeros, 513) == TN_NOT_OWNED);
        SURE(tn_server_say_own(&server, 24, 7) == TN_NOT_OWNED && tn_server_say_own(&server, 201, 250) == TN_NO_COMMAND);
        SURE(tn_server_say_own_sub(&server, 201, zeros, 513) == TN_TOO_LONG && tn_server_say_own_sub(&server, 201, zeros, 512) == TN_OK);
        SURE(tn_server_read(&server, buf, sizeof buf, &count) == TN_OK && count == 517);
        tn_server_free(&server);
    }
}

/* No piece is read while 64 items of owned options wait; once they are taken, the same piece is. Memory that is refused to one of them
 * fails the feed, and those after it. */
static void worked_own_wait(void)
{
    tn_server server = TN_HANDLE;
    tn_kind kind = TN_DROPPED;
    size_t count = 77, taken = 77;
    bool failed = true;
    SURE(tn_server_start(&server, &standard, 255) == TN_OK && tn_server_own(&server, 70) == TN_OK);
    for (int i = 0; i < 64; i++)
        FEED(&server, "\xff\xfb\x46");
    SURE(tn_server_feed(&server, (const uint8_t *)"a\r\0", 3) == TN_ITEMS_WAIT);
    SURE(tn_server_feed_some(&server, (const uint8_t *)"a\r\0", 3, &taken) == TN_ITEMS_WAIT && taken == 77);
    takes_own(&server, TN_WORD, 251, 70, "", 0);
    SURE(tn_server_feed_some(&server, (const uint8_t *)"a\r\0", 3, &taken) == TN_OK && taken == 3);
    SURE(tn_server_take(&server, &kind) == TN_OK && kind == TN_TEXT && tn_server_take(&server, &kind) == TN_OK && kind == TN_NONE);
    for (int i = 0; i < 63; i++)
        takes_own(&server, TN_WORD, 251, 70, "", 0);
    takes_own(&server, TN_NO_ITEM, 0, 0, "", 0);
    SURE(tn_server_failed(&server, &failed) == TN_OK && !failed);
    memset(buf, 'x', 4096);
    refused_call = calls + 1;
    SURE(tn_server_feed(&server, buf, 4096) == TN_MEMORY);
    refused_call = 0;
    SURE(tn_server_feed(&server, buf, 1) == TN_FAILED && tn_server_feed_some(&server, buf, 1, &taken) == TN_FAILED);
    SURE(tn_server_failed(&server, &failed) == TN_OK && failed);
    SURE(tn_server_half(&server, buf, sizeof buf, &count) == TN_OK && count == 0);
    tn_server_free(&server);
}

static void worked_own_at_client(void)
{
    tn_client client = TN_HANDLE;
    tn_item item = { TN_BYTE, 77, 77, 77 };
    size_t count = 77;
    bool failed = true;
    SURE(tn_client_start(&client, 80, 24, 255) == TN_OK && tn_client_own(&client, 201) == TN_OK);
    SURE(tn_client_own(&client, 34) == TN_RESERVED && tn_client_say_own(&client, 70, 253) == TN_NOT_OWNED);
    SURE(tn_client_say_own(&client, 201, 253) == TN_OK && tn_client_say_own_sub(&client, 201, (const uint8_t *)"x", 1) == TN_OK);
    CLIENT_SAYS(&client, "\xff\xfd\xc9\xff\xfa\xc9x\xff\xf0", "");
    SURE(tn_client_feed(&client, (const uint8_t *)"h\xff\xfb\xc9i\xff\xfb\x18\xff\xfa\xc9yz\xff\xf0", 15) == TN_OK);
    SURE(tn_client_own(&client, 70) == TN_TOO_LATE);
    CLIENT_SAYS(&client, "\xff\xfe\x18", "hi");
    SURE(tn_client_take_own(&client, &item) == TN_OK && item.kind == TN_WORD && item.code == 251 && item.option == 201);
    SURE(tn_client_take_own(&client, &item) == TN_OK && item.kind == TN_SUBNEGOTIATION && item.length == 2);
    SURE(tn_client_own_parameters(&client, buf, sizeof buf, &count) == TN_OK && count == 2 && memcmp(buf, "yz", 2) == 0);
    SURE(tn_client_take_own(&client, &item) == TN_OK && item.kind == TN_NO_ITEM);
    for (int i = 0; i < 64; i++)
        SURE(tn_client_feed(&client, (const uint8_t *)"\xff\xfb\xc9", 3) == TN_OK);
    SURE(tn_client_feed(&client, (const uint8_t *)"xy", 2) == TN_ITEMS_WAIT && tn_client_take_own(&client, &item) == TN_OK);
    SURE(tn_client_feed(&client, (const uint8_t *)"xy", 2) == TN_OK && tn_client_failed(&client, &failed) == TN_OK && !failed);
    CLIENT_SAYS(&client, "", "xy");
    tn_client_free(&client);
}

/* What docs/C.md says of memory: each takes no more than this from malloc when it starts. */
static void worked_memory(void)
{
    tn_server server = TN_HANDLE;
    tn_client client = TN_HANDLE;
    tn_line line = TN_HANDLE;
    tn_decoder decoder = TN_HANDLE;
    asked = 0;
    SURE(tn_server_start(&server, &standard, 255) == TN_OK && asked <= 10070);
    asked = 0;
    SURE(tn_client_start(&client, 80, 24, 255) == TN_OK && asked <= 839);
    asked = 0;
    SURE(tn_line_start(&line, &standard, 255) == TN_OK && asked <= 839);
    asked = 0;
    SURE(tn_decoder_start(&decoder) == TN_OK && asked <= 584);
    tn_server_free(&server);
    tn_client_free(&client);
    tn_line_free(&line);
    tn_decoder_free(&decoder);
}

static void interrupt(tn_server *server, size_t count)
{
    memset(buf, 3, count); /* ^C, which makes an entry without a text */
    SURE(tn_server_feed(server, buf, count) == TN_OK);
}

static void take_interrupts(tn_server *server, size_t count)
{
    tn_kind kind = TN_NONE;
    for (size_t i = 0; i < count; i++)
        SURE(tn_server_take(server, &kind) == TN_OK && kind == TN_INT);
}

/* The slots for entries grow with those that wait, and are given back with the last one, unless there is no memory for a few slots. Without
 * memory for a slot a key makes no entry. */
static void worked_slots(void)
{
    tn_server server = TN_HANDLE;
    tn_kind kind = TN_NONE;
    bool failed = false;
    size_t few = 0;
    SURE(tn_server_start(&server, &standard, 255) == TN_OK);
    few = held;
    interrupt(&server, 1000);
    SURE(held > few + 1000 * sizeof(void *));
    take_interrupts(&server, 1000);
    SURE(held <= few);
    interrupt(&server, 1000);
    take_interrupts(&server, 999);
    refused_call = calls + 1;
    take_interrupts(&server, 1);
    SURE(calls == refused_call && held > few);
    refused_call = 0;
    interrupt(&server, 1);
    take_interrupts(&server, 1);
    SURE(held <= few);
    interrupt(&server, 16);
    refused_call = calls + 1;
    buf[0] = 3;
    SURE(tn_server_feed(&server, buf, 1) == TN_MEMORY && calls == refused_call);
    refused_call = 0;
    SURE(tn_server_failed(&server, &failed) == TN_OK && failed);
    take_interrupts(&server, 16);
    SURE(tn_server_take(&server, &kind) == TN_OK && kind == TN_NONE);
    tn_server_free(&server);
}

static void *typed_elsewhere(void *client)
{
    SURE(tn_client_key(client, 'b') == TN_OK);
    return NULL;
}

/* A handle is used on another thread, and then here again. */
static void worked_threads(void)
{
    tn_client client = TN_HANDLE;
    pthread_t thread;
    SURE(tn_client_start(&client, 80, 24, 255) == TN_OK && tn_client_key(&client, 'a') == TN_OK);
    SURE(pthread_create(&thread, NULL, typed_elsewhere, &client) == 0 && pthread_join(thread, NULL) == 0);
    CLIENT_SAYS(&client, "ab", "ab");
    tn_client_free(&client);
}

/* Each code is TN_OK, or of a refusal of memory. */
static bool may(tn_code code)
{
    SURE(code == TN_OK || code == TN_MEMORY || code == TN_FAILED || code == TN_NOT_STARTED || code == TN_NOT_ON
        || code == TN_NOT_OWNED);
    return code == TN_OK;
}

static void deliver(tn_server *server, tn_client *client)
{
    for (int round = 0; round < 4; round++) {
        size_t count = 0;
        may(tn_server_pull(server, 4096, &count));
        count = 0;
        if (may(tn_server_read(server, buf, sizeof buf, &count)))
            may(tn_client_feed(client, buf, count));
        count = 0;
        if (may(tn_client_read(client, buf, sizeof buf, &count)))
            may(tn_server_feed(server, buf, count));
    }
}

/* Both ends joined: a line is edited at the client, a special character is agreed on, and then the server edits. */
static void worked_pair(void)
{
    tn_server server = TN_HANDLE;
    tn_client client = TN_HANDLE;
    tn_kind kind = TN_DROPPED;
    tn_option_state state = TN_OPTION_WANT_NO;
    uint16_t value = 77, trapped = 77, plain = 77, width = 77, height = 77;
    uint8_t mode = 77;
    size_t count = 77;
    bool sent = false;
    SURE(tn_server_start(&server, &standard, 255) == TN_OK && tn_client_start(&client, 80, 24, 255) == TN_OK);
    deliver(&server, &client);
    SURE(tn_server_wish(&server, true, &sent) == TN_OK && sent);
    deliver(&server, &client);
    SURE(tn_client_mode(&client, &mode) == TN_OK && mode == (TN_MODE_EDIT | TN_MODE_TRAPSIG));
    SURE(tn_server_mode(&server, &mode) == TN_OK && mode == (TN_MODE_EDIT | TN_MODE_TRAPSIG));
    SURE(tn_client_option(&client, true, 34, &state) == TN_OK && state == TN_OPTION_YES);
    SURE(tn_client_option(&client, false, 24, &state) == TN_OK && state == TN_OPTION_NO);
    SURE(tn_server_size(&server, &width, &height) == TN_OK && width == 80 && height == 24);
    SURE(tn_client_key(&client, 'a') == TN_OK && tn_client_key(&client, 'b') == TN_OK);
    CLIENT_SAYS(&client, "", "ab");
    SURE(tn_client_half(&client, buf, sizeof buf, &count) == TN_OK && count == 2 && memcmp(buf, "ab", 2) == 0);
    SURE(tn_client_counts(&client, &trapped, &plain) == TN_OK && trapped == 0 && plain == 0);
    SURE(tn_client_send(&client, TN_COMMAND_IP) == TN_OK); /* before the line that is held, which stays */
    CLIENT_SAYS(&client, "\xff\xf4", "");
    SURE(tn_client_send(&client, TN_COMMAND_IP) == TN_OK);
    deliver(&server, &client);
    SURE(tn_server_take(&server, &kind) == TN_OK && kind == TN_INT);
    SURE(tn_client_half(&client, buf, sizeof buf, &count) == TN_OK && count == 2 && memcmp(buf, "ab", 2) == 0);
    SURE(tn_client_char(&client, TN_CHAR_KILL, &value) == TN_OK && value == 21);
    SURE(tn_client_propose(&client, TN_CHAR_KILL, 24) == TN_OK);
    deliver(&server, &client);
    SURE(tn_client_char(&client, TN_CHAR_KILL, &value) == TN_OK && value == 24);
    SURE(tn_server_char(&server, TN_CHAR_KILL, &value) == TN_OK && value == 24);
    SURE(tn_client_key(&client, 24) == TN_OK && tn_client_key(&client, 'c') == TN_OK && tn_client_key(&client, 13) == TN_OK);
    deliver(&server, &client);
    SURE(tn_server_take(&server, &kind) == TN_OK && kind == TN_TEXT);
    SURE(tn_server_text(&server, buf, sizeof buf, &count) == TN_OK && count == 2 && memcmp(buf, "c\n", 2) == 0);
    SURE(tn_server_take(&server, &kind) == TN_OK && kind == TN_NONE);
    SURE(tn_server_text(&server, buf, sizeof buf, &count) == TN_OK && count == 0);
    SURE(tn_server_wish(&server, false, &sent) == TN_OK && sent);
    deliver(&server, &client);
    SURE(tn_client_mode(&client, &mode) == TN_OK && mode == 0);
    SURE(tn_client_new_line(&client) == TN_OK);
    deliver(&server, &client);
    SURE(tn_server_take(&server, &kind) == TN_OK && kind == TN_TEXT);
    SURE(tn_server_text(&server, buf, sizeof buf, &count) == TN_OK && count == 1 && buf[0] == '\n');
    SURE(tn_client_key(&client, 'd') == TN_OK);
    deliver(&server, &client);
    SURE(tn_server_half(&server, buf, sizeof buf, &count) == TN_OK && count == 1 && buf[0] == 'd');
    SURE(tn_client_counts(&client, &trapped, &plain) == TN_OK && trapped == 1 && plain == 1);
    tn_server_free(&server);
    tn_client_free(&client);
}

/* Both ends with an option of their own. */
static void own_session(void)
{
    tn_server server = TN_HANDLE;
    tn_client client = TN_HANDLE;
    tn_item item = { TN_NO_ITEM, 0, 0, 0 };
    size_t count = 0;
    may(tn_server_start(&server, &standard, 255));
    may(tn_client_start(&client, 80, 24, 255));
    if (may(tn_server_own(&server, 201)) && may(tn_client_own(&client, 201))) {
        may(tn_client_key(&client, '\r'));
        may(tn_client_say_own(&client, 201, 253));
        may(tn_client_say_own_sub(&client, 201, (const uint8_t *)"Core.Hello", 10));
        deliver(&server, &client);
        may(tn_server_take_own(&server, &item));
        may(tn_server_take_own(&server, &item));
        may(tn_server_own_parameters(&server, buf, sizeof buf, &count));
        may(tn_server_say_own(&server, 201, 251));
        may(tn_server_say_own_sub(&server, 201, (const uint8_t *)"Core.Goodbye", 12));
        deliver(&server, &client);
        may(tn_client_take_own(&client, &item));
    }
    tn_server_free(&server);
    tn_client_free(&client);
}

/* A session of both ends, with a line that is edited at the client, and a line and a decoder beside it. */
static void session(void)
{
    tn_server server = TN_HANDLE;
    tn_client client = TN_HANDLE;
    tn_line line = TN_HANDLE;
    tn_decoder decoder = TN_HANDLE;
    tn_kind kind = TN_DROPPED;
    const uint8_t *bytes = NULL;
    size_t count = 0;
    bool sent = false;
    tn_item item = { TN_NO_ITEM, 0, 0, 0 };
    may(tn_server_start(&server, &standard, 255));
    may(tn_client_start(&client, 80, 24, 255));
    deliver(&server, &client);
    may(tn_server_wish(&server, true, &sent));
    deliver(&server, &client);
    may(tn_client_resize(&client, 90, 30));
    may(tn_client_propose(&client, TN_CHAR_KILL, 24));
    may(tn_client_send(&client, TN_COMMAND_AYT));
    may(tn_server_set_char(&server, TN_CHAR_EOL, 7));
    may(tn_server_set_mask(&server, (const uint8_t *)"\0\0", 2));
    for (const char *key = "echo one\x7f" "e\r\x1cnothing\x18two\x07\x04"; *key; key++)
        may(tn_client_key(&client, (uint8_t)*key));
    may(tn_client_new_line(&client));
    deliver(&server, &client);
    for (int i = 0; i < 5; i++) {
        may(tn_server_take(&server, &kind));
        may(tn_server_write(&server, (const uint8_t *)"done\n", 5, &count));
    }
    may(tn_server_set_echo(&server, false));
    may(tn_server_wish(&server, false, &sent));
    deliver(&server, &client);
    may(tn_client_screen(&client, buf, sizeof buf, &count));
    may(tn_server_feed_some(&server, (const uint8_t *)"a line\r", 7, &count));
    may(tn_server_say(&server, buf, sizeof buf, &count));
    may(tn_server_peek(&server, &bytes, &count));
    may(tn_server_sent(&server, count));
    own_session();
    may(tn_line_start(&line, &standard, 255));
    for (const char *key = "abc\r\x04" "d\x04"; *key; key++)
        may(tn_line_key(&line, (uint8_t)*key, &kind));
    may(tn_decoder_start(&decoder));
    may(tn_decoder_feed(&decoder, (const uint8_t *)"ab\r\n\xff\xfa\x18\x01xyz\xff\xf0" "c", 14));
    may(tn_decoder_take_run(&decoder, buf, 1, &count));
    do {
        item.kind = TN_NO_ITEM;
        may(tn_decoder_take(&decoder, &item));
    } while (item.kind != TN_NO_ITEM);
    may(tn_line_echo(&line, buf, sizeof buf, &count));
    may(tn_server_forget(&server));
    may(tn_put_byte('a', buf, sizeof buf, &count));
    may(tn_put_newline(buf, sizeof buf, &count));
    may(tn_put_command(241, buf, sizeof buf, &count));
    may(tn_put_option(251, 1, buf, sizeof buf, &count));
    may(tn_put_sub(24, (const uint8_t *)"\0vt100", 6, buf, sizeof buf, &count));
    tn_server_free(&server);
    tn_client_free(&client);
    tn_line_free(&line);
    tn_decoder_free(&decoder);
}

static void refuse_each(void)
{
    do {
        refused_call++;
        calls = 0;
        session();
        SURE(live == 0);
    } while (calls >= refused_call);
    printf("%ld allocations, each refused once\n", refused_call - 1);
}

static void print_entry(tn_kind kind, const uint8_t *text, size_t length)
{
    static const char *names[] = { "", "text ", "eof", "signal int", "signal quit", "signal tstp" };
    printf("%s", names[kind]);
    for (size_t i = 0; kind == TN_TEXT && i < length; i++)
        printf("%02x", text[i]);
    printf("\n");
}

static uint8_t stream[1 << 20];

static void by_server(size_t length)
{
    tn_server server = TN_HANDLE;
    tn_kind kind = TN_DROPPED;
    tn_item item = { TN_NO_ITEM, 0, 0, 0 };
    const uint8_t *bytes = NULL;
    size_t at = 0, count = 0;
    SURE(tn_server_start(&server, &standard, 255) == TN_OK);
    if (rand() % 2) /* options whose items have no part in the keys, as owned ones */
        SURE(tn_server_own(&server, 24) == TN_OK && tn_server_own(&server, 41) == TN_OK);
    while (at < length) {
        size_t piece = (size_t)(rand() % 800);
        piece = piece < length - at ? piece : length - at;
        if (piece < 300) {
            SURE(tn_server_feed(&server, stream + at, piece) == TN_OK);
            at += piece;
        } else {
            SURE(tn_server_feed_some(&server, stream + at, piece, &count) == TN_OK && count > 0);
            at += count;
        }
        for (;;) {
            SURE(tn_server_take(&server, &kind) == TN_OK);
            if (kind == TN_NONE)
                break;
            SURE(tn_server_text(&server, buf, sizeof buf, &count) == TN_OK);
            print_entry(kind, buf, count);
        }
        do {
            SURE(tn_server_take_own(&server, &item) == TN_OK);
            SURE(item.kind == TN_NO_ITEM || item.option == 24 || item.option == 41);
        } while (item.kind != TN_NO_ITEM);
        SURE(tn_server_say(&server, NULL, 0, &count) == TN_OK && tn_server_peek(&server, &bytes, &count) == TN_OK);
        SURE(tn_server_sent(&server, count) == TN_OK);
    }
    tn_server_free(&server);
}

static void type_and_print(tn_line *line, uint8_t key)
{
    static uint8_t text[255];
    tn_effect effect = TN_DROPPED;
    size_t count = 0;
    SURE(tn_line_key(line, key, &effect) == TN_OK && tn_line_text(line, text, sizeof text, &count) == TN_OK);
    if (effect >= TN_TEXT && effect <= TN_TSTP)
        print_entry(effect, text, count);
}

/* Data is taken in runs of up to 39 bytes, or item by item. */
static void by_parts(size_t length)
{
    tn_decoder decoder = TN_HANDLE;
    tn_line line = TN_HANDLE;
    size_t at = 0, count = 0;
    tn_item item = { TN_NO_ITEM, 0, 0, 0 };
    SURE(tn_decoder_start(&decoder) == TN_OK && tn_line_start(&line, &standard, 255) == TN_OK);
    while (at < length) {
        size_t piece = (size_t)(rand() % 300);
        piece = piece < length - at ? piece : length - at;
        SURE(tn_decoder_feed(&decoder, stream + at, piece) == TN_OK);
        at += piece;
        do {
            SURE(tn_decoder_take_run(&decoder, buf, (size_t)(rand() % 40), &count) == TN_OK);
            for (size_t i = 0; i < count; i++)
                type_and_print(&line, buf[i]);
            SURE(tn_decoder_take(&decoder, &item) == TN_OK);
            if (item.kind == TN_BYTE || item.kind == TN_NEWLINE)
                type_and_print(&line, item.kind == TN_BYTE ? item.code : '\n');
        } while (item.kind != TN_NO_ITEM);
    }
    tn_decoder_free(&decoder);
    tn_line_free(&line);
}

int main(int argc, char **argv)
{
    const char *word = argc > 1 ? argv[1] : "";
    if (argc > 2)
        srand((unsigned)atoi(argv[2]));
    if (strcmp(word, "worked") == 0) {
        worked_line();
        worked_decoder();
        worked_spelling();
        worked_server();
        worked_breaks();
        worked_output();
        worked_lines();
        worked_some();
        worked_client();
        worked_own();
        worked_own_wait();
        worked_own_at_client();
        worked_pair();
        worked_memory();
        worked_slots();
        worked_threads();
    } else if (strcmp(word, "refused") == 0) {
        refuse_each();
    } else if (strcmp(word, "server") == 0) {
        by_server(fread(stream, 1, sizeof stream, stdin));
    } else if (strcmp(word, "parts") == 0) {
        by_parts(fread(stream, 1, sizeof stream, stdin));
    } else {
        return 2;
    }
    SURE(live == 0);
    return 0;
}
