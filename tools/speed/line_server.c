// A Telnet server in C of the form that `tn serve` has, which tools/trials/speed.py measures next to it. The stream is libtelnet's
// (Debian: libtelnet-dev); lines are edited here, with bytes, ERASE, KILL, return and ^D alone, and are echoed alike.
// Each line is written back; `exit`, and ^D on an empty line, end the session with `bye`.
//
//   cc -O2 -pthread -o line_server tools/speed/line_server.c -ltelnet && ./line_server PORT COUNT [FORM]
//
// It ends once COUNT sessions have ended. FORM says which threads a session has:
//
//   mailbox   as `tn serve`: one reads, one has the terminal and writes, one has the job; mails go between them
//   lock      one reads and one has the job; the terminal is under a lock, and each writes what comes of its own work
//   one       one thread does all
#define _GNU_SOURCE
#include <arpa/inet.h>
#include <errno.h>
#include <libtelnet.h>
#include <netinet/in.h>
#include <netinet/tcp.h>
#include <pthread.h>
#include <stdbool.h>
#include <stdio.h>
#include <stdlib.h>
#include <string.h>
#include <sys/socket.h>
#include <unistd.h>

#define PIECE 512
#define MAILS 64
#define ENTRIES 2
#define LONGEST 254 // bytes of a line before the one that closes it
#define WAITING 1024
#define WELCOME 511 // a piece is read while at most so many lines wait

enum { ERASE = 127, KILL = 21, END_OF_FILE = 4 };

static void fail(const char *what) {
    perror(what);
    exit(1);
}

static void *room(size_t size) {
    void *got = calloc(1, size);
    if (!got) fail("memory");
    return got;
}

// ---- What threads hand each other -----------------------------------------------------------------------------------

enum kind { CAME, TAKE, SAID, DONE, ENTRY, CREDIT, LEFT };

struct mail {
    enum kind kind;
    char *bytes; // of the one who has the mail
    size_t length;
};

struct channel {
    pthread_mutex_t lock;
    pthread_cond_t more, less;
    size_t capacity, first, count;
    struct mail mails[MAILS];
};

static void make_channel(struct channel *channel, size_t capacity) {
    pthread_mutex_init(&channel->lock, 0);
    pthread_cond_init(&channel->more, 0);
    pthread_cond_init(&channel->less, 0);
    channel->capacity = capacity;
}

static void put(struct channel *channel, struct mail mail) {
    pthread_mutex_lock(&channel->lock);
    while (channel->count == channel->capacity) pthread_cond_wait(&channel->less, &channel->lock);
    channel->mails[(channel->first + channel->count++) % channel->capacity] = mail;
    pthread_mutex_unlock(&channel->lock);
    pthread_cond_signal(&channel->more);
}

static struct mail take(struct channel *channel) {
    struct mail mail;
    pthread_mutex_lock(&channel->lock);
    while (channel->count == 0) pthread_cond_wait(&channel->more, &channel->lock);
    mail = channel->mails[channel->first];
    channel->first = (channel->first + 1) % channel->capacity;
    channel->count--;
    pthread_mutex_unlock(&channel->lock);
    pthread_cond_signal(&channel->less);
    return mail;
}

// ---- The terminal ---------------------------------------------------------------------------------------------------

struct session {
    int socket;
    telnet_t *stream;
    char line[LONGEST + 1], shown[8 * PIECE], out[32 * PIECE];
    size_t length, shows, sends;
    bool after_cr, echoes, over, asked;
    struct mail waiting[WAITING]; // lines that were not taken yet
    size_t first, waits;
    struct channel mails, entries, credits; // form mailbox
    pthread_mutex_t lock; // form lock
    pthread_cond_t typed, taken;
    bool gone;
};

// Text on the screen goes through the stream, which doubles 255.
static void flush_shown(struct session *session) {
    if (session->shows) telnet_send(session->stream, session->shown, session->shows);
    session->shows = 0;
}

static void show(struct session *session, const char *bytes, size_t length) {
    if (session->shows + length > sizeof session->shown) flush_shown(session);
    memcpy(session->shown + session->shows, bytes, length);
    session->shows += length;
}

static void echo(struct session *session, const char *bytes, size_t length) {
    if (session->echoes) show(session, bytes, length);
}

static void close_line(struct session *session) {
    struct mail *last = &session->waiting[(session->first + session->waits) % WAITING];
    if (session->waits++ == WAITING) fail("too many lines wait");
    *last = (struct mail){ENTRY, room(session->length + 1), session->length};
    memcpy(last->bytes, session->line, session->length);
    session->length = 0;
}

static void type_key(struct session *session, char key) {
    if (key == '\n' || key == '\r') {
        session->line[session->length++] = '\n';
        echo(session, "\r\n", 2);
        close_line(session);
    } else if (key == ERASE) {
        if (session->length == 0) return;
        session->length--;
        echo(session, "\b \b", 3);
    } else if (key == KILL) {
        session->length = 0;
        echo(session, "\r\n", 2);
    } else if (key == END_OF_FILE) {
        close_line(session);
    } else if (session->length == LONGEST) {
        echo(session, "\a", 1);
    } else {
        session->line[session->length++] = key;
        echo(session, &key, 1);
    }
}

// CR NUL and CR LF are return.
static void type_keys(struct session *session, const char *bytes, size_t length) {
    size_t at;
    for (at = 0; at < length; at++) {
        bool ends = session->after_cr && (bytes[at] == '\n' || bytes[at] == 0);
        session->after_cr = bytes[at] == '\r';
        if (!ends) type_key(session, bytes[at]);
    }
}

static void keep(struct session *session, const char *bytes, size_t length) {
    if (session->sends + length > sizeof session->out) fail("too much to send");
    memcpy(session->out + session->sends, bytes, length);
    session->sends += length;
}

static void on_event(telnet_t *stream, telnet_event_t *event, void *data) {
    struct session *session = data;
    (void)stream;
    if (event->type == TELNET_EV_DATA) type_keys(session, event->data.buffer, event->data.size);
    if (event->type == TELNET_EV_SEND) keep(session, event->data.buffer, event->data.size);
    if (event->type == TELNET_EV_DO && event->neg.telopt == TELNET_TELOPT_ECHO) session->echoes = true;
    if (event->type == TELNET_EV_DONT && event->neg.telopt == TELNET_TELOPT_ECHO) session->echoes = false;
}

static void write_out(struct session *session) {
    size_t at = 0;
    flush_shown(session);
    while (at < session->sends) {
        ssize_t count = send(session->socket, session->out + at, session->sends - at, MSG_NOSIGNAL);
        if (count <= 0) break;
        at += (size_t)count;
    }
    session->sends = 0;
}

// What the job says, with CR LF for each line feed.
static void say(struct session *session, const char *text, size_t length) {
    size_t at;
    for (at = 0; at < length; at++)
        if (text[at] == '\n') show(session, "\r\n", 2);
        else show(session, text + at, 1);
    write_out(session);
}

static struct mail next_line(struct session *session) {
    struct mail line = session->waiting[session->first];
    session->first = (session->first + 1) % WAITING;
    session->waits--;
    return line;
}

// The opening words of `tn serve`. What else is offered is refused.
static void open_session(struct session *session) {
    static const telnet_telopt_t options[] = {
        {TELNET_TELOPT_ECHO, TELNET_WILL, TELNET_DONT},
        {TELNET_TELOPT_SGA, TELNET_WILL, TELNET_DO},
        {TELNET_TELOPT_NAWS, TELNET_WONT, TELNET_DO},
        {TELNET_TELOPT_LINEMODE, TELNET_WONT, TELNET_DO},
        {-1, 0, 0},
    };
    session->stream = telnet_init(options, on_event, 0, session);
    if (!session->stream) fail("memory");
    telnet_negotiate(session->stream, TELNET_DO, TELNET_TELOPT_LINEMODE);
    telnet_negotiate(session->stream, TELNET_DO, TELNET_TELOPT_NAWS);
    telnet_negotiate(session->stream, TELNET_WILL, TELNET_TELOPT_SGA);
    telnet_negotiate(session->stream, TELNET_DO, TELNET_TELOPT_SGA);
    telnet_negotiate(session->stream, TELNET_WILL, TELNET_TELOPT_ECHO);
    write_out(session);
}

// ---- The job --------------------------------------------------------------------------------------------------------

// Makes what is said of a line.
static struct mail answer(struct mail line) {
    if (line.length == 0 || (line.length == 5 && !memcmp(line.bytes, "exit\n", 5))) {
        free(line.bytes);
        line = (struct mail){DONE, room(4), 4};
        memcpy(line.bytes, "bye\n", 4);
        return line;
    }
    line.kind = SAID;
    return line;
}

// ---- Form mailbox ---------------------------------------------------------------------------------------------------

// How many bytes came, 0 at the end. It wakes twice a second, as a read of `tn serve` does.
static size_t read_some(int socket, char *piece) {
    for (;;) {
        ssize_t count = recv(socket, piece, PIECE, 0);
        if (count >= 0) return (size_t)count;
        if (errno != EAGAIN && errno != EINTR) return 0;
    }
}

static void *run_reader(void *data) {
    struct session *session = data;
    for (;;) {
        char *piece = room(PIECE);
        size_t count = read_some(session->socket, piece);
        if (count == 0) {
            free(piece);
            put(&session->mails, (struct mail){LEFT, 0, 0});
            return 0;
        }
        take(&session->credits);
        put(&session->mails, (struct mail){CAME, piece, count});
    }
}

static void *run_job(void *data) {
    struct session *session = data;
    struct mail said = {LEFT, 0, 0};
    do {
        struct mail line;
        put(&session->mails, (struct mail){TAKE, 0, 0});
        line = take(&session->entries);
        if (line.kind == LEFT) break;
        said = answer(line);
        put(&session->mails, said);
    } while (said.kind == SAID);
    put(&session->mails, (struct mail){LEFT, 0, 0});
    return 0;
}

static void hand_on(struct session *session) {
    if (!session->asked || session->over) return;
    if (session->waits) put(&session->entries, next_line(session));
    else if (session->gone) put(&session->entries, (struct mail){LEFT, 0, 0});
    else return;
    session->asked = false;
}

// Handles one mail, and says whether one of the threads has left.
static int handle(struct session *session, struct mail mail) {
    if (mail.kind == CAME && !session->over) telnet_recv(session->stream, mail.bytes, mail.length);
    if (mail.kind == TAKE) session->asked = true;
    if (mail.kind == LEFT && !session->over) session->gone = true;
    hand_on(session);
    if (mail.kind == SAID || mail.kind == DONE) say(session, mail.bytes, mail.length);
    else write_out(session);
    if (mail.kind == DONE) {
        session->over = true;
        shutdown(session->socket, SHUT_WR);
    }
    free(mail.bytes);
    return mail.kind == LEFT;
}

static void run_mailbox(struct session *session) {
    pthread_t reader, job;
    int left = 0;
    bool owed = true;
    make_channel(&session->mails, MAILS);
    make_channel(&session->entries, ENTRIES);
    make_channel(&session->credits, 1);
    if (pthread_create(&reader, 0, run_reader, session)) fail("thread");
    if (pthread_create(&job, 0, run_job, session)) fail("thread");
    while (left < 2) {
        struct mail mail;
        if (owed && (session->over || session->waits <= WELCOME)) {
            put(&session->credits, (struct mail){CREDIT, 0, 0});
            owed = false;
        }
        mail = take(&session->mails);
        owed = owed || mail.kind == CAME;
        left += handle(session, mail);
    }
    pthread_join(reader, 0);
    pthread_join(job, 0);
}

// ---- Form lock ------------------------------------------------------------------------------------------------------

static void *run_locked_job(void *data) {
    struct session *session = data;
    pthread_mutex_lock(&session->lock);
    while (!session->over) {
        struct mail said;
        while (session->waits == 0 && !session->gone) pthread_cond_wait(&session->typed, &session->lock);
        if (session->waits == 0) break;
        said = next_line(session);
        pthread_mutex_unlock(&session->lock);
        pthread_cond_signal(&session->taken);
        said = answer(said);
        pthread_mutex_lock(&session->lock);
        say(session, said.bytes, said.length);
        free(said.bytes);
        session->over = said.kind == DONE;
    }
    shutdown(session->socket, SHUT_WR);
    pthread_mutex_unlock(&session->lock);
    pthread_cond_signal(&session->taken);
    return 0;
}

// While too many lines wait no piece is typed.
static void run_locked(struct session *session) {
    pthread_t job;
    char piece[PIECE];
    size_t count;
    pthread_mutex_init(&session->lock, 0);
    pthread_cond_init(&session->typed, 0);
    pthread_cond_init(&session->taken, 0);
    if (pthread_create(&job, 0, run_locked_job, session)) fail("thread");
    do {
        bool typed;
        count = read_some(session->socket, piece);
        pthread_mutex_lock(&session->lock);
        while (session->waits > WELCOME && !session->over) pthread_cond_wait(&session->taken, &session->lock);
        if (count && !session->over) telnet_recv(session->stream, piece, count);
        write_out(session);
        session->gone = count == 0;
        typed = session->waits > 0 || session->gone;
        pthread_mutex_unlock(&session->lock);
        if (typed) pthread_cond_signal(&session->typed);
    } while (count);
    pthread_join(job, 0);
}

// ---- Form one -------------------------------------------------------------------------------------------------------

static void run_one(struct session *session) {
    char piece[PIECE];
    size_t count;
    while ((count = read_some(session->socket, piece))) {
        if (session->over) continue;
        telnet_recv(session->stream, piece, count);
        write_out(session);
        while (session->waits && !session->over) {
            struct mail said = answer(next_line(session));
            say(session, said.bytes, said.length);
            free(said.bytes);
            session->over = said.kind == DONE;
        }
        if (session->over) shutdown(session->socket, SHUT_WR);
    }
}

// ---- Sessions -------------------------------------------------------------------------------------------------------

static void (*run_session)(struct session *) = run_mailbox;

static void *serve(void *data) {
    struct session *session = data;
    struct timeval half = {0, 500000};
    int one = 1;
    setsockopt(session->socket, IPPROTO_TCP, TCP_NODELAY, &one, sizeof one);
    setsockopt(session->socket, SOL_SOCKET, SO_RCVTIMEO, &half, sizeof half);
    open_session(session);
    run_session(session);
    telnet_free(session->stream);
    while (session->waits) free(next_line(session).bytes);
    close(session->socket);
    free(session);
    return 0;
}

static int listener_at(int port) {
    struct sockaddr_in address = {.sin_family = AF_INET, .sin_port = htons((uint16_t)port)};
    int listener = socket(AF_INET, SOCK_STREAM, 0), one = 1;
    address.sin_addr.s_addr = htonl(INADDR_LOOPBACK);
    if (listener < 0) fail("socket");
    setsockopt(listener, SOL_SOCKET, SO_REUSEADDR, &one, sizeof one);
    if (bind(listener, (struct sockaddr *)&address, sizeof address)) fail("bind");
    if (listen(listener, 128)) fail("listen");
    return listener;
}

static void choose(const char *form) {
    if (!strcmp(form, "lock")) run_session = run_locked;
    else if (!strcmp(form, "one")) run_session = run_one;
    else if (strcmp(form, "mailbox")) fprintf(stderr, "line_server: no form %s\n", form), exit(2);
}

int main(int count, char **words) {
    int sessions = count > 2 ? atoi(words[2]) : 0, listener, at;
    pthread_t *threads;
    if (sessions < 1) fprintf(stderr, "usage: line_server PORT COUNT [mailbox | lock | one]\n"), exit(2);
    if (count > 3) choose(words[3]);
    threads = room((size_t)sessions * sizeof *threads);
    listener = listener_at(atoi(words[1]));
    for (at = 0; at < sessions; at++) {
        struct session *session = room(sizeof *session);
        session->socket = accept(listener, 0, 0);
        if (session->socket < 0) fail("accept");
        if (pthread_create(&threads[at], 0, serve, session)) fail("thread");
    }
    for (at = 0; at < sessions; at++) pthread_join(threads[at], 0);
    return 0;
}
