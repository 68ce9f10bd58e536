/* tn.h: Telnet with LINEMODE (RFC 854, 855, 857, 858, 1073, 1143, 1184) for C99 and C++.
 *
 * There are four types: a tn_line (keys to entries), a tn_decoder (a stream to items), a tn_server and a tn_client (the two ends
 * of a connection). No call opens a socket, reads a file, starts a thread or waits: bytes go in, bytes come out.
 *
 * The caller has to keep these rules:
 *   - Each handle begins as TN_HANDLE and holds nothing. Its _start fills it, its _free frees what it holds, and it may be started
 *     again. It may be moved, never copied: of two copies only one is ever used again. Only these calls read or write what is in it.
 *   - One call at a time uses a handle, on any thread: a lock, a thread's start or join, or a sequentially consistent atomic orders
 *     the calls of two threads. Different handles are independent. A call that takes a handle as const leaves all that it holds as it
 *     was, but writes the handle meanwhile: not even two such calls may be made at once.
 *   - A pointer to bytes may be null if their number is 0, and the handle of _free may be null; no other pointer is null. Each points
 *     to as many objects of its type as the call names. Initialize them even if the call only writes to them: the prover knows a
 *     reference to bytes only as one to bytes that have a value. A count or a length begins as 0, a buffer as { 0 }. No two pointers
 *     of one call point to overlapping memory. No call keeps a pointer: after the call the memory is the caller's again.
 *   - Memory comes from malloc and realloc and is freed by free, all three of one allocator.
 *   - No call is made from a signal handler, nor in the child of a fork of a process with threads.
 *
 * A call that copies to a buffer copies the first bytes, as many as fit, and sets *length to the number of all of them: if that is more
 * than the buffer's size, they stay, and may be copied to a larger one. The bytes of _read and _screen are moved: *count of them, and
 * the others wait on.
 *
 * Each call but _free, tn_version and tn_code_text returns a code. If it is not TN_OK, nothing was written through the pointers, and the
 * handle's content is as it was, except after _feed, _feed_some and tn_server_say, whose comments say what they leave. Every call but
 * _start, _free and those without a handle returns TN_NOT_STARTED if its handle holds nothing; the comments below do not name it again.
 * The other codes of a call are named at it; if several apply, it returns the first one there.
 */
#ifndef TN_H
#define TN_H

#include <stdbool.h>
#include <stddef.h>
#include <stdint.h>

#ifdef __cplusplus
extern "C" {
#endif

#define TN_VERSION "1.2.0"
#define TN_VERSION_MAJOR 1
#define TN_VERSION_MINOR 2
#define TN_VERSION_PATCH 0
#define TN_VERSION_NUMBER 10200 /* what tn_version() returns */

/* The shared library that a program built with this header loads. */
#define TN_SONAME "libtn.so.2"

/* Attributes by which a compiler checks that these parameters are not null, and that the code is used. */
#ifdef __GNUC__
#define TN_NONNULL(places) __attribute__((nonnull places))
#define TN_CALL(places) TN_NONNULL(places) __attribute__((warn_unused_result))
#else
#define TN_NONNULL(places)
#define TN_CALL(places)
#endif

/* Each enum has four bytes. */
#if (defined(__cplusplus) && __cplusplus >= 201103L) || (defined(__STDC_VERSION__) && __STDC_VERSION__ >= 202311L)
#define TN_ENUM : uint32_t
#else
#define TN_ENUM
#endif

/* Four types, so that a call with another one does not compile. If TN_UNTYPED is defined, they are one type, tn_handle, and the names
 * of version 1.0 are defined. */
#ifdef TN_UNTYPED
typedef struct tn_handle {
    void *tn_private;
} tn_handle;
typedef tn_handle tn_line, tn_decoder, tn_server, tn_client;
#define tn_end tn_line_free
#define tn_client_shown tn_client_screen_pending
#else
typedef struct tn_line {
    void *tn_private;
} tn_line;
typedef struct tn_decoder {
    void *tn_private;
} tn_decoder;
typedef struct tn_server {
    void *tn_private;
} tn_server;
typedef struct tn_client {
    void *tn_private;
} tn_client;
#endif

#define TN_HANDLE { 0 }

/* What a call answers. */
typedef enum tn_code TN_ENUM {
    TN_OK = 0,
    TN_MEMORY = 1,        /* an allocation was refused */
    TN_FAILED = 2,        /* a feed failed before: the end or the decoder reads no more */
    TN_NOT_STARTED = 3,   /* nothing is held */
    TN_STARTED = 4,       /* something is held already */
    TN_OTHER_KIND = 5,    /* it holds another of the four: never, unless a pointer was cast */
    TN_NO_LIMIT = 6,      /* a line's limit is 255 to 4,095 bytes */
    TN_TOO_FAR_AHEAD = 7, /* a key would make an entry while 1,024 wait */
    TN_CLOSED = 8,        /* the terminal takes no input: only when its end fails, so TN_FAILED comes first */
    TN_NO_FUNCTION = 9,   /* RFC 1184 has no function of this number */
    TN_NOT_SETTABLE = 10, /* the function has no special character */
    TN_RESERVED = 11,     /* 10, 13 and 255 are never special characters; options 1, 3, 31 and 34 are the end's own */
    TN_TAKEN = 12,        /* another function has this character */
    TN_NOT_ON = 13,       /* LINEMODE is not on */
    TN_TOO_LONG = 14,     /* a forward mask has at most 32 octets, a subnegotiation 512 parameters */
    TN_NO_COMMAND = 15,   /* no command that the call takes, or no verb (WILL to DONT), has this number */
    TN_NOT_OWNED = 16,    /* the option is not owned */
    TN_TOO_LATE = 17,     /* a piece was fed before: an option is owned before the first feed */
    TN_ITEMS_WAIT = 18    /* 64 items of owned options wait, or more: take them, and feed the piece again */
} tn_code;

/* Other names of four codes. */
#define TN_BAD_LIMIT TN_NO_LIMIT
#define TN_BAD_FUNCTION TN_NO_FUNCTION
#define TN_CHAR_IN_USE TN_TAKEN
#define TN_BAD_COMMAND TN_NO_COMMAND

/* Returns a short English text for a code. It is never freed. */
const char *tn_code_text(tn_code code);

/* Returns the version of the linked library, in the form of TN_VERSION_NUMBER, which is the version of this header. */
uint32_t tn_version(void);

/* The kind of an entry, which a read of a terminal returns, and the effect of a key. */
typedef enum tn_effect TN_ENUM {
    TN_NONE = 0, /* no entry waits; of a key: it was ignored, or there was nothing to erase */
    TN_TEXT = 1, /* a line with its closing byte, or without one if EOF ended it */
    TN_EOF = 2,  /* EOF when nothing was typed */
    TN_INT = 3,  /* the three signals */
    TN_QUIT = 4,
    TN_TSTP = 5,
    TN_KEPT = 6,         /* the byte joined the half-typed line */
    TN_ERASED = 7,       /* the last byte was erased */
    TN_ERASED_AHEAD = 8, /* the last byte that was handed on before was erased: never of tn_line_key */
    TN_KILLED = 9,       /* the half-typed line was erased */
    TN_DROPPED = 10      /* the line is full */
} tn_effect;

typedef tn_effect tn_kind; /* of an entry: TN_NONE to TN_TSTP */

/* A terminal's flags, under their names in POSIX.1-2017, XBD 11.2. This struct and tn_item never grow in a library of this
 * TN_SONAME. */
typedef struct tn_flags {
    bool icrnl, inlcr, igncr, isig, echo, echoe, echok, echonl, tostop, opost, onlcr;
} tn_flags;

#define TN_STANDARD_FLAGS { true, false, false, true, true, true, true, false, false, true, true }

/* The functions of RFC 1184 that have a special character, and the character with which each begins. */
typedef enum tn_function TN_ENUM {
    TN_CHAR_INTR = 3,   /* 3, control-C */
    TN_CHAR_QUIT = 7,   /* 28 */
    TN_CHAR_EOF = 8,    /* 4, control-D */
    TN_CHAR_SUSP = 9,   /* 26, control-Z */
    TN_CHAR_ERASE = 10, /* 127 */
    TN_CHAR_KILL = 11,  /* 21, control-U */
    TN_CHAR_EOL = 17,   /* none */
    TN_CHAR_EOL2 = 18   /* none */
} tn_function;

/* A special character is 0 to 254. TN_NO_CHAR, and each greater number that is passed to a call, stands for none. */
#define TN_NO_CHAR 256

/* The bits of a mode (RFC 1184, section 2.2). */
#define TN_MODE_EDIT 1
#define TN_MODE_TRAPSIG 2

/* The state of one side of an option (RFC 1143, section 7). */
typedef enum tn_option_state TN_ENUM {
    TN_OPTION_NO = 0,
    TN_OPTION_YES = 1,
    TN_OPTION_WANT_NO = 2,
    TN_OPTION_WANT_NO_THEN_YES = 3,
    TN_OPTION_WANT_YES = 4,
    TN_OPTION_WANT_YES_THEN_NO = 5
} tn_option_state;

typedef char tn_enums_have_four_bytes[sizeof(tn_code) == 4 ? 1 : -1]; /* not under -fshort-enums */

/* Frees all that the handle holds, if anything; it holds nothing after the call. A null pointer is allowed, and nothing happens. */
void tn_line_free(tn_line *line);
void tn_decoder_free(tn_decoder *decoder);
void tn_server_free(tn_server *server);
void tn_client_free(tn_client *client);

/* ---- A line: keys to entries (POSIX.1-2017, XBD 11.1) ---- */

/* Puts an empty line into the handle, of at most limit bytes (255 to 4,095) with its closing one, and with the characters of
 * TN_CHAR_... above.
 *
 * Returns: TN_STARTED, TN_NO_LIMIT, TN_MEMORY. */
tn_code tn_line_start(tn_line *line, const tn_flags *flags, uint16_t limit) TN_CALL((1, 2));

/* Types a key, and sets *effect to its effect, TN_NONE to TN_DROPPED.
 *
 * Returns: TN_MEMORY, only for a key that gives a text; nothing was typed. */
tn_code tn_line_key(tn_line *line, uint8_t key, tn_effect *effect) TN_CALL((1, 3));

/* Copies the text that the last key gave, at most limit bytes; *length is 0 if it gave none. */
tn_code tn_line_text(const tn_line *line, uint8_t *buf, size_t size, size_t *length) TN_CALL((1, 4));

/* Copies the bytes that a terminal shows of the last key, at most 3, with CR LF for a new line.
 *
 * Returns: TN_MEMORY. */
tn_code tn_line_echo(const tn_line *line, uint8_t *buf, size_t size, size_t *length) TN_CALL((1, 4));

/* Copies the half-typed line, which has fewer than limit bytes. */
tn_code tn_line_half(const tn_line *line, uint8_t *buf, size_t size, size_t *length) TN_CALL((1, 4));

/* Sets the flags of the line; the half-typed line stays. */
tn_code tn_line_set_flags(tn_line *line, const tn_flags *flags) TN_CALL((1, 2));

/* Changes a special character, or disables it by TN_NO_CHAR; the half-typed line stays.
 *
 * Returns: TN_NO_FUNCTION, TN_NOT_SETTABLE, TN_RESERVED, TN_TAKEN. */
tn_code tn_line_set_char(tn_line *line, uint8_t function, uint16_t value) TN_CALL((1));

/* Sets *value to a special character, or to TN_NO_CHAR if it is disabled.
 *
 * Returns: TN_NO_FUNCTION. */
tn_code tn_line_char(const tn_line *line, uint8_t function, uint16_t *value) TN_CALL((1, 3));

/* ---- A decoder: a stream to items (RFC 854, 855) ---- */

typedef enum tn_item_kind TN_ENUM {
    TN_NO_ITEM = 0,
    TN_BYTE = 1,
    TN_NEWLINE = 2, /* CR LF */
    TN_COMMAND = 3,
    TN_WORD = 4,
    TN_SUBNEGOTIATION = 5
} tn_item_kind;

typedef struct tn_item {
    tn_item_kind kind;
    uint8_t code;   /* of TN_BYTE, TN_COMMAND (236 to 249, never 240) and TN_WORD (251 WILL to 254 DONT) */
    uint8_t option; /* of TN_WORD and TN_SUBNEGOTIATION */
    size_t length;  /* of TN_SUBNEGOTIATION: the number of its parameters, at most 512 */
} tn_item;

/* Puts a decoder that has read nothing into the handle.
 *
 * Returns: TN_STARTED, TN_MEMORY. */
tn_code tn_decoder_start(tn_decoder *decoder) TN_CALL((1));

/* Reads a piece, cut anywhere; the items that it completes wait to be taken.
 *
 * Returns:
 * - TN_FAILED: the decoder had failed before, and all is as it was.
 * - TN_MEMORY: the items before the refused one wait, and the decoder has failed. */
tn_code tn_decoder_feed(tn_decoder *decoder, const uint8_t *bytes, size_t length) TN_CALL((1));

/* Takes the first item that waits; its kind is TN_NO_ITEM if none does. */
tn_code tn_decoder_take(tn_decoder *decoder, tn_item *item) TN_CALL((1, 2));

/* Moves to buf the first bytes of data that wait, as many as came together and fit, and sets *count to their number: 0 if another item
 * is first. A CR that is data and a byte 255 each come by themselves. The item that was taken last stays. */
tn_code tn_decoder_take_run(tn_decoder *decoder, uint8_t *buf, size_t size, size_t *count) TN_CALL((1, 4));

/* Copies the parameters of the item that was taken last; *length is 0 if that is no subnegotiation. */
tn_code tn_decoder_parameters(const tn_decoder *decoder, uint8_t *buf, size_t size, size_t *length) TN_CALL((1, 4));

/* ---- Spelling: the bytes that a decoder reads as such an item ---- */

/* Spell a byte of data, which is 1 or 2 bytes long, and a new line, which is 2 bytes long.
 *
 * Returns: TN_MEMORY. */
tn_code tn_put_byte(uint8_t byte, uint8_t *buf, size_t size, size_t *length) TN_CALL((4));
tn_code tn_put_newline(uint8_t *buf, size_t size, size_t *length) TN_CALL((3));

/* Spell a command (236 to 249, never 240), 2 bytes, and an option message, 3 bytes, whose word is 251 WILL to 254 DONT.
 *
 * Returns: TN_NO_COMMAND, TN_MEMORY. */
tn_code tn_put_command(uint8_t command, uint8_t *buf, size_t size, size_t *length) TN_CALL((4));
tn_code tn_put_option(uint8_t word, uint8_t option, uint8_t *buf, size_t size, size_t *length) TN_CALL((5));

/* Spells a subnegotiation, which is at most 6 bytes longer than twice its parameters.
 *
 * Returns: TN_TOO_LONG, TN_MEMORY. */
tn_code tn_put_sub(uint8_t option, const uint8_t *parameters, size_t count, uint8_t *buf, size_t size, size_t *length)
    TN_CALL((6));

/* ---- A server end, with its terminal ---- */

/* Puts a server end into the handle, over a terminal with these flags, whose lines have at most limit bytes (255 to 4,095); the opening
 * messages wait to be read. Its special characters are those above: tn_server_set_char changes them, even before anything came.
 *
 * Returns: TN_STARTED, TN_NO_LIMIT, TN_MEMORY. */
tn_code tn_server_start(tn_server *server, const tn_flags *flags, uint16_t limit) TN_CALL((1, 2));

/* Puts a server end for clients that edit lines themselves into the handle, as tn_server_start does, but opens with DO LINEMODE and DO
 * NAWS only: it sends neither WILL ECHO nor WILL SUPPRESS-GO-AHEAD, by which a client without LINEMODE sends each key. Such a client edits
 * and echoes its lines itself, and hides them while the flag ECHO is clear (tn_server_set_echo).
 *
 * Returns: TN_STARTED, TN_NO_LIMIT, TN_MEMORY. */
tn_code tn_server_start_lines(tn_server *server, const tn_flags *flags, uint16_t limit) TN_CALL((1, 2));

/* Takes a piece of the client's stream, cut anywhere; the replies wait to be read. A piece of at most 512 bytes is not too far ahead if
 * at most 511 entries wait: feed no more at once, and take the entries after each.
 *
 * Returns:
 * - TN_FAILED: a feed failed before, and all is as it was.
 * - TN_ITEMS_WAIT: nothing of the piece was read, and all is as it was.
 * - TN_CLOSED, TN_TOO_FAR_AHEAD, TN_MEMORY: the items before the refused one were done, their replies wait, and the end has failed: read
 *   the replies, and close the connection. If memory was refused to an item of an owned option, the end got nothing of the piece, and its
 *   calls but _feed go on. */
tn_code tn_server_feed(tn_server *server, const uint8_t *bytes, size_t length) TN_CALL((1));

/* Takes the first bytes of a piece of the client's stream, and sets *taken to their number: at most 512, and none while more than 511
 * entries wait, so that it is never too far ahead. Take the entries, and feed the other bytes after that.
 *
 * Returns: TN_FAILED, TN_ITEMS_WAIT, TN_CLOSED, TN_MEMORY, which leave what tn_server_feed leaves. */
tn_code tn_server_feed_some(tn_server *server, const uint8_t *bytes, size_t length, size_t *taken) TN_CALL((1, 4));

/* Sets *count to the number of bytes that wait to be sent. */
tn_code tn_server_pending(const tn_server *server, size_t *count) TN_CALL((1, 2));

/* Moves to buf the first of the bytes that wait to be sent, as many as fit, and sets *count to their number. The others wait on. */
tn_code tn_server_read(tn_server *server, uint8_t *buf, size_t size, size_t *count) TN_CALL((1, 4));

/* The first call sets *bytes to the place of the bytes that wait to be sent, and *count to their number; the place holds until the next
 * call that does not take this server as const. If *count is 0, *bytes points to nothing. The second call removes the first of these
 * bytes, at most count, since they were sent. */
tn_code tn_server_peek(const tn_server *server, const uint8_t **bytes, size_t *count) TN_CALL((1, 2, 3));
tn_code tn_server_sent(tn_server *server, size_t count) TN_CALL((1));

/* Takes the first entry, and sets *kind to its kind, TN_NONE to TN_TSTP. If none waits, a GA may be due to be sent (RFC 858).
 *
 * Returns: TN_MEMORY, only for the GA. */
tn_code tn_server_take(tn_server *server, tn_kind *kind) TN_CALL((1, 2));

/* Copies the text of the entry that was taken last, at most limit bytes; *length is 0 if that was no text, or none waited. */
tn_code tn_server_text(const tn_server *server, uint8_t *buf, size_t size, size_t *length) TN_CALL((1, 4));

/* Writes zeros over the text of the entry that was taken last, as over a password: its length stays, until the next take. The call does
 * not reach the copies that the terminal and the decoder held before. */
tn_code tn_server_forget(tn_server *server) TN_CALL((1));

/* Writes output to the terminal's screen, which has room for 4,096 symbols, and sets *count to the number of bytes that found room. */
tn_code tn_server_write(tn_server *server, const uint8_t *bytes, size_t length, size_t *count) TN_CALL((1, 4));

/* Spells the first symbols of the screen, at most max, to be sent, and sets *count to the number of symbols, each of one byte or two. The
 * echo is on the screen too, so pull after each feed.
 *
 * Returns: TN_MEMORY. */
tn_code tn_server_pull(tn_server *server, size_t max, size_t *count) TN_CALL((1, 3));

/* Writes the first of these bytes, as tn_server_write does, sets *count to their number, and spells all that waits on the screen then, the
 * echo too, even if there are no bytes. If the screen was empty, the first 4,096 find room.
 *
 * Returns: TN_MEMORY; *count bytes were written, and wait on the screen. */
tn_code tn_server_say(tn_server *server, const uint8_t *bytes, size_t length, size_t *count) TN_CALL((1, 4));

/* Requests that the client, or the server, edit lines (RFC 1184, section 2.2), and sets *sent to whether a MODE waits to be sent for it.
 * The client edits once it has acknowledged the MODE.
 *
 * Returns: TN_FAILED, TN_MEMORY. */
tn_code tn_server_wish(tn_server *server, bool at_client, bool *sent) TN_CALL((1, 3));

/* Changes a special character, or disables it by TN_NO_CHAR; a client with LINEMODE gets its triple (RFC 1184, section 2.4).
 *
 * Returns: TN_NO_FUNCTION, TN_FAILED, TN_NOT_SETTABLE, TN_RESERVED, TN_TAKEN, TN_MEMORY. */
tn_code tn_server_set_char(tn_server *server, uint8_t function, uint16_t value) TN_CALL((1));

/* Sets or clears the terminal's flag ECHO, and sends WILL or WONT ECHO if that is due (RFC 857). A password is hidden only at a client
 * that has agreed: tn_server_option(server, true, 1, &state) gives TN_OPTION_YES.
 *
 * Returns: TN_FAILED, TN_MEMORY. */
tn_code tn_server_set_echo(tn_server *server, bool on) TN_CALL((1));

/* Asks the client to send the bytes that it holds at each character of the mask (RFC 1184, section 2.3), of at most 32 octets; those that
 * are left out are zero.
 *
 * Returns: TN_TOO_LONG, TN_FAILED, TN_NOT_ON, TN_MEMORY. */
tn_code tn_server_set_mask(tn_server *server, const uint8_t *octets, size_t length) TN_CALL((1));

/* Asks the client to send the bytes that it holds at no character any more.
 *
 * Returns: TN_FAILED, TN_NOT_ON, TN_MEMORY. */
tn_code tn_server_clear_mask(tn_server *server) TN_CALL((1));

/* Sets *kind to the kind of an entry that waits, by its place, from 0 on; TN_NONE after the last. */
tn_code tn_server_waiting(const tn_server *server, size_t index, tn_kind *kind) TN_CALL((1, 3));

/* Copies the text of an entry that waits, and stays; *length is 0 if none is at that place, or it is no text. */
tn_code tn_server_waiting_text(const tn_server *server, size_t index, uint8_t *buf, size_t size, size_t *length) TN_CALL((1, 5));

/* Sets *kind to the first signal among the entries that wait, or to TN_NONE. */
tn_code tn_server_signal_waiting(const tn_server *server, tn_kind *kind) TN_CALL((1, 2));

/* The facts of a server that its client changes, as bits, each with the call that returns the fact. */
typedef enum tn_change TN_ENUM {
    TN_CHANGED_SIZE = 1,   /* tn_server_size */
    TN_CHANGED_MODE = 2,   /* tn_server_mode */
    TN_CHANGED_OPTION = 4, /* tn_server_option */
    TN_CHANGED_CHAR = 8,   /* tn_server_char */
    TN_CHANGED_BREAK = 16  /* none: the number of BREAKs (IAC BRK) that came, modulo 2^32. A BREAK makes a TN_INT, as control-C does. */
} tn_change;

/* Sets *bits to the sum of the tn_change of all facts that differ from those at the last such call, or at the start. */
tn_code tn_server_changes(tn_server *server, uint32_t *bits) TN_CALL((1, 2));

/* Sets *width and *height to the window's size in characters; 0 is unspecified (RFC 1073). */
tn_code tn_server_size(const tn_server *server, uint16_t *width, uint16_t *height) TN_CALL((1, 2, 3));

/* Set *mode to the mode that the client acknowledged last, and to the one that it was asked for last. */
tn_code tn_server_mode(const tn_server *server, uint8_t *mode) TN_CALL((1, 2));
tn_code tn_server_asked(const tn_server *server, uint8_t *mode) TN_CALL((1, 2));

/* Copies the half-typed line, which has fewer than limit bytes. */
tn_code tn_server_half(const tn_server *server, uint8_t *buf, size_t size, size_t *length) TN_CALL((1, 4));

/* Sets *value to a special character, or to TN_NO_CHAR if it is disabled.
 *
 * Returns: TN_NO_FUNCTION. */
tn_code tn_server_char(const tn_server *server, uint8_t function, uint16_t *value) TN_CALL((1, 3));

/* Sets *state to the state of an option, at our side or at theirs. */
tn_code tn_server_option(const tn_server *server, bool ours, uint8_t option, tn_option_state *state) TN_CALL((1, 4));

/* Sets *failed to whether a feed failed; one that was refused by TN_ITEMS_WAIT did not. */
tn_code tn_server_failed(const tn_server *server, bool *failed) TN_CALL((1, 2));

/* ---- A client end, which edits lines if its server asks for that ---- */

/* Puts a client end into the handle, whose window has this size in characters, 0 for a dimension that is not known, and whose lines have
 * at most limit bytes (255 to 4,095). Nothing waits to be sent: the server begins the negotiation.
 *
 * Returns: TN_STARTED, TN_NO_LIMIT, TN_MEMORY. */
tn_code tn_client_start(tn_client *client, uint16_t width, uint16_t height, uint16_t limit) TN_CALL((1));

/* Types a key: the bytes that it sends wait to be read, and its echo waits to be shown.
 *
 * Returns: TN_FAILED, TN_MEMORY; nothing was typed. */
tn_code tn_client_key(tn_client *client, uint8_t key) TN_CALL((1));

/* Enters a new line: types the key LF, which goes to the server as CR LF, also if keys go one at a time (RFC 1123, section 3.3.1).
 *
 * Returns: TN_FAILED, TN_MEMORY; nothing was typed. */
tn_code tn_client_new_line(tn_client *client) TN_CALL((1));

/* Takes a piece of the server's stream, cut anywhere: replies wait to be read, text waits to be shown.
 *
 * Returns:
 * - TN_FAILED: a feed failed before, and all is as it was.
 * - TN_ITEMS_WAIT: nothing of the piece was read, and all is as it was.
 * - TN_MEMORY: the items before the refused one were done, and the end has failed. If memory was refused to an item of an owned option, the
 *   end got nothing of the piece, and its calls but _feed go on. */
tn_code tn_client_feed(tn_client *client, const uint8_t *bytes, size_t length) TN_CALL((1));

/* The first call sets *count to the number of bytes that wait to be sent. The second moves the first of them to buf, as many as fit, and
 * sets *count to their number. */
tn_code tn_client_pending(const tn_client *client, size_t *count) TN_CALL((1, 2));
tn_code tn_client_read(tn_client *client, uint8_t *buf, size_t size, size_t *count) TN_CALL((1, 4));

/* The first call sets *count to the number of bytes that wait to be shown on the user's screen. The second moves the first of them to buf,
 * as many as fit, and sets *count to their number. */
tn_code tn_client_screen_pending(const tn_client *client, size_t *count) TN_CALL((1, 2));
tn_code tn_client_screen(tn_client *client, uint8_t *buf, size_t size, size_t *count) TN_CALL((1, 4));

/* Takes a new size of the window, in characters; it waits to be sent if NAWS is on and the size changed (RFC 1073).
 *
 * Returns: TN_FAILED, TN_MEMORY. */
tn_code tn_client_resize(tn_client *client, uint16_t width, uint16_t height) TN_CALL((1));

/* Proposes a special character to the server; nothing changes until the server acknowledges it (RFC 1184, section 2.4).
 *
 * Returns: TN_NO_FUNCTION, TN_FAILED, TN_NOT_ON, TN_NOT_SETTABLE, TN_RESERVED, TN_TAKEN, TN_MEMORY. */
tn_code tn_client_propose(tn_client *client, uint8_t function, uint16_t value) TN_CALL((1));

/* The commands that a client sends for its user (RFC 854, "Standard representation of control functions"). */
typedef enum tn_command TN_ENUM {
    TN_COMMAND_NOP = 241, /* no operation, which yet shows whether the connection stands */
    TN_COMMAND_BRK = 243, /* the key BREAK */
    TN_COMMAND_IP = 244,  /* interrupts the process at the server */
    TN_COMMAND_AYT = 246  /* asks whether the server is there */
} tn_command;

/* Sends a command at once, before the bytes of a line that are held, which stay as they are.
 *
 * Returns: TN_NO_COMMAND, if it is none of these four; TN_FAILED, TN_MEMORY. */
tn_code tn_client_send(tn_client *client, tn_command command) TN_CALL((1));

/* Sets *mode to the mode in force. */
tn_code tn_client_mode(const tn_client *client, uint8_t *mode) TN_CALL((1, 2));

/* Copies the bytes of the half-typed line that the client holds: with those of _ahead they are fewer than limit. */
tn_code tn_client_half(const tn_client *client, uint8_t *buf, size_t size, size_t *length) TN_CALL((1, 4));

/* Sets *count to the number of bytes of the half-typed line that were sent before those that the client holds. */
tn_code tn_client_ahead(const tn_client *client, uint16_t *count) TN_CALL((1, 2));

/* Sets *trapped and *plain to the length of a half-typed line that the server edits, if its ISIG is set and if it is clear; 0 if the client
 * edits. */
tn_code tn_client_counts(const tn_client *client, uint16_t *trapped, uint16_t *plain) TN_CALL((1, 2, 3));

/* The facts of a client that tn_server_char, tn_server_option and tn_server_failed give of a server. */
tn_code tn_client_char(const tn_client *client, uint8_t function, uint16_t *value) TN_CALL((1, 3));
tn_code tn_client_option(const tn_client *client, bool ours, uint8_t option, tn_option_state *state) TN_CALL((1, 4));
tn_code tn_client_failed(const tn_client *client, bool *failed) TN_CALL((1, 2));

/* ---- Options of your own, at a server end or a client end ---- */

/* Own an option (GMCP, MSSP, TTYPE ..), before the first feed: the end no longer refuses the option. Its option messages and its
 * subnegotiations wait in their order until _take_own takes them, the end gets none of them, and _option gives TN_OPTION_NO. To answer them
 * is up to the caller. A subnegotiation of more than 512 parameters is dropped, as by a tn_decoder.
 *
 * Returns: TN_RESERVED, if the option is ECHO (1), SUPPRESS-GO-AHEAD (3), NAWS (31) or LINEMODE (34); TN_TOO_LATE, TN_MEMORY. */
tn_code tn_server_own(tn_server *server, uint8_t option) TN_CALL((1));
tn_code tn_client_own(tn_client *client, uint8_t option) TN_CALL((1));

/* Take the first item of owned options that waits, a TN_WORD or a TN_SUBNEGOTIATION; its kind is TN_NO_ITEM if none does. */
tn_code tn_server_take_own(tn_server *server, tn_item *item) TN_CALL((1, 2));
tn_code tn_client_take_own(tn_client *client, tn_item *item) TN_CALL((1, 2));

/* Copy the parameters of the item that _take_own took last; *length is 0 if that is no subnegotiation. */
tn_code tn_server_own_parameters(const tn_server *server, uint8_t *buf, size_t size, size_t *length) TN_CALL((1, 4));
tn_code tn_client_own_parameters(const tn_client *client, uint8_t *buf, size_t size, size_t *length) TN_CALL((1, 4));

/* Send an option message of an owned option, whose word is 251 WILL to 254 DONT: it waits to be read.
 *
 * Returns: TN_NOT_OWNED, TN_NO_COMMAND, TN_MEMORY. */
tn_code tn_server_say_own(tn_server *server, uint8_t option, uint8_t word) TN_CALL((1));
tn_code tn_client_say_own(tn_client *client, uint8_t option, uint8_t word) TN_CALL((1));

/* Send a subnegotiation of an owned option, of at most 512 parameters: it waits to be read.
 *
 * Returns: TN_NOT_OWNED, TN_TOO_LONG, TN_MEMORY. */
tn_code tn_server_say_own_sub(tn_server *server, uint8_t option, const uint8_t *parameters, size_t count) TN_CALL((1));
tn_code tn_client_say_own_sub(tn_client *client, uint8_t option, const uint8_t *parameters, size_t count) TN_CALL((1));

#ifdef __cplusplus
}
#endif

#endif
