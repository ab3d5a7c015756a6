/* Load for a server of OVSDB on loopback, and a canned server to measure the load's own ceiling. bench/serving.py builds and runs it.

     load ask PORT SESSIONS SECONDS REQUEST      each session sends the request again as soon as it is answered
     load copy PORT REQUEST                      one session sends the request once
     load late PORT SESSIONS REQUEST COMMITS WRITE SECONDS
                                                 each session sends the request, a monitor's; one more sends WRITE, and again once all
                                                 have heard an update: how late the last of them is
     load can PORT REQUEST REPLY                 answers each request with the reply, until its standard input ends

   REQUEST, REPLY and WRITE are files. All replies to one request have one length, so that only the first of each session is scanned. */
#define _GNU_SOURCE
#include <arpa/inet.h>
#include <errno.h>
#include <netinet/tcp.h>
#include <stdbool.h>
#include <stdio.h>
#include <stdlib.h>
#include <string.h>
#include <sys/epoll.h>
#include <sys/resource.h>
#include <time.h>
#include <unistd.h>

enum { PIECE = 1 << 20, EVENTS = 256, OVERLAP = 32, WAIT_MILLISECONDS = 100, CONNECT_PAUSE = 2000 };
static const char UPDATE[] = "\"method\":\"update";
static const char PROBE[] = "\"method\":\"echo\"";
static const char PROBE_ANSWER[] = "{\"id\":\"echo\",\"result\":[],\"error\":null}";
static const double PATIENCE = 120;
static char piece[OVERLAP + PIECE];

struct text {
    char *bytes;
    size_t length;
};

/* How far a message is read. */
struct scan {
    long depth;
    bool is_in_text, is_escaped;
};

struct session {
    int socket;
    struct scan scan;
    size_t reply_length, got;
    long replies, updates;
    size_t kept; /* how many of the last bytes are kept, in case that a word is cut */
    char last[OVERLAP];
};

static void fail(const char *what) {
    fprintf(stderr, "load: %s: %s\n", what, strerror(errno));
    exit(1);
}

static double now(void) {
    struct timespec time;
    clock_gettime(CLOCK_MONOTONIC, &time);
    return time.tv_sec + time.tv_nsec / 1e9;
}

static double processor_seconds(void) {
    struct rusage usage;
    getrusage(RUSAGE_SELF, &usage);
    return usage.ru_utime.tv_sec + usage.ru_stime.tv_sec + (usage.ru_utime.tv_usec + usage.ru_stime.tv_usec) / 1e6;
}

static struct text read_file(const char *path) {
    FILE *file = fopen(path, "rb");
    if (file == NULL)
        fail(path);
    fseek(file, 0, SEEK_END);
    struct text text = {.length = ftell(file)};
    rewind(file);
    text.bytes = malloc(text.length + 1);
    if (text.bytes == NULL || fread(text.bytes, 1, text.length, file) != text.length)
        fail(path);
    fclose(file);
    return text;
}

static struct sockaddr_in loopback(int port) {
    return (struct sockaddr_in){.sin_family = AF_INET, .sin_port = htons(port), .sin_addr.s_addr = htonl(INADDR_LOOPBACK)};
}

static void send_at_once(int socket) {
    int one = 1;
    setsockopt(socket, IPPROTO_TCP, TCP_NODELAY, &one, sizeof one);
}

static void send_all(int socket, const char *bytes, size_t length) {
    while (length > 0) {
        ssize_t sent = send(socket, bytes, length, MSG_NOSIGNAL);
        if (sent < 0)
            fail("send");
        bytes += sent;
        length -= sent;
    }
}

static void send_text(int socket, struct text text) {
    send_all(socket, text.bytes, text.length);
}

/* The number of bytes up to the end of the message, or 0 where it goes on. */
static size_t end_of_message(struct scan *scan, const char *bytes, size_t length) {
    for (size_t at = 0; at < length; at++) {
        char byte = bytes[at];
        if (scan->is_escaped)
            scan->is_escaped = false;
        else if (scan->is_in_text && byte == '\\')
            scan->is_escaped = true;
        else if (byte == '"')
            scan->is_in_text = !scan->is_in_text;
        else if (!scan->is_in_text && (byte == '{' || byte == '['))
            scan->depth++;
        else if (!scan->is_in_text && (byte == '}' || byte == ']') && --scan->depth == 0)
            return at + 1;
    }
    return 0;
}

/* Reads what is there: the number of bytes behind `piece + OVERLAP`, or 0 where nothing is there. */
static size_t receive(int socket) {
    ssize_t read = recv(socket, piece + OVERLAP, PIECE, MSG_DONTWAIT);
    if (read == 0 || (read < 0 && errno != EAGAIN && errno != EINTR)) {
        errno = read == 0 ? ECONNRESET : errno;
        fail("a session ended");
    }
    return read < 0 ? 0 : read;
}

static struct session *open_sessions(int port, int count, int poll) {
    struct session *sessions = calloc(count, sizeof *sessions);
    struct sockaddr_in address = loopback(port);
    if (sessions == NULL)
        fail("memory");
    for (int number = 0; number < count; number++) {
        sessions[number].socket = socket(AF_INET, SOCK_STREAM, 0);
        if (sessions[number].socket < 0 || connect(sessions[number].socket, (struct sockaddr *)&address, sizeof address) < 0)
            fail("connect");
        send_at_once(sessions[number].socket);
        /* A server with a short queue of connections has time to take each; else one waits for seconds, and those before it are probed. */
        usleep(CONNECT_PAUSE);
        struct epoll_event event = {.events = EPOLLIN, .data.ptr = &sessions[number]};
        epoll_ctl(poll, EPOLL_CTL_ADD, sessions[number].socket, &event);
    }
    return sessions;
}

/* Takes what is read into a reply; tells whether it is whole now. */
static bool hears_reply(struct session *session, size_t length) {
    if (session->reply_length == 0) {
        size_t end = end_of_message(&session->scan, piece + OVERLAP, length);
        if (end > 0)
            session->reply_length = session->got + end;
    }
    session->got += length;
    if (session->reply_length == 0 || session->got < session->reply_length)
        return false;
    session->got -= session->reply_length;
    session->replies++;
    return true;
}

static int ask(int port, int count, double seconds, struct text request) {
    int poll = epoll_create1(0);
    struct session *sessions = open_sessions(port, count, poll);
    struct epoll_event events[EVENTS];
    double begun = now(), processor = processor_seconds(), until = begun + seconds;
    for (int number = 0; number < count; number++)
        send_text(sessions[number].socket, request);
    while (now() < until) {
        int found = epoll_wait(poll, events, EVENTS, WAIT_MILLISECONDS);
        for (int place = 0; place < found; place++) {
            struct session *session = events[place].data.ptr;
            size_t length = receive(session->socket);
            if (length > 0 && hears_reply(session, length))
                send_text(session->socket, request);
        }
    }
    long replies = 0;
    for (int number = 0; number < count; number++)
        replies += sessions[number].replies;
    printf("replies %ld seconds %.6f bytes %zu processor %.6f\n", replies, now() - begun, sessions[0].reply_length, processor_seconds() - processor);
    return 0;
}

static int copy(int port, struct text request) {
    int poll = epoll_create1(0);
    struct session *session = open_sessions(port, 1, poll);
    struct epoll_event event;
    double begun = now();
    send_text(session->socket, request);
    while (session->replies == 0 && now() < begun + PATIENCE) {
        size_t length = epoll_wait(poll, &event, 1, WAIT_MILLISECONDS) > 0 ? receive(session->socket) : 0;
        if (length > 0)
            hears_reply(session, length);
    }
    printf("seconds %.6f bytes %zu\n", now() - begun, session->reply_length);
    return session->replies == 0;
}

static long count_of(const char *bytes, size_t length, const char *word, size_t kept) {
    long found = 0;
    size_t size = strlen(word);
    for (const char *at = bytes; (at = memmem(at, bytes + length - at, word, size)) != NULL; at += size)
        found += at + size > bytes + kept; /* else it was counted with the piece before */
    return found;
}

/* Counts the updates in what is read, and answers a probe. */
static void hears_updates(struct session *session, size_t length) {
    char *bytes = piece + OVERLAP - session->kept;
    memcpy(bytes, session->last, session->kept);
    size_t whole = session->kept + length;
    session->updates += count_of(bytes, whole, UPDATE, session->kept);
    if (count_of(bytes, whole, PROBE, session->kept) > 0)
        send_all(session->socket, PROBE_ANSWER, sizeof PROBE_ANSWER - 1);
    session->kept = whole < OVERLAP ? whole : OVERLAP;
    memcpy(session->last, bytes + whole - session->kept, session->kept);
}

/* Sends the request on each session and waits until all are answered. What comes behind a reply in one piece is counted. */
static void begin_all(struct session *sessions, int count, int poll, struct text request) {
    struct epoll_event events[EVENTS];
    double until = now() + PATIENCE;
    int left = count;
    for (int number = 0; number < count; number++)
        send_text(sessions[number].socket, request);
    while (left > 0 && now() < until) {
        int found = epoll_wait(poll, events, EVENTS, WAIT_MILLISECONDS);
        for (int place = 0; place < found; place++) {
            struct session *session = events[place].data.ptr;
            size_t length = receive(session->socket);
            if (length == 0)
                continue;
            hears_updates(session, length);
            if (session->replies == 0 && hears_reply(session, length))
                left--;
        }
    }
    if (left > 0)
        fail("not all monitors were answered");
}

/* Hears updates until each session has heard so many. */
static bool hear_all(struct session *sessions, int count, int poll, long updates, double until) {
    struct epoll_event events[EVENTS];
    int left = 0;
    for (int number = 0; number < count; number++)
        left += sessions[number].updates < updates;
    while (left > 0 && now() < until) {
        int found = epoll_wait(poll, events, EVENTS, WAIT_MILLISECONDS);
        for (int place = 0; place < found; place++) {
            struct session *session = events[place].data.ptr;
            size_t length = receive(session->socket);
            bool is_short = session->updates < updates;
            if (length > 0)
                hears_updates(session, length);
            left -= is_short && session->updates >= updates;
        }
    }
    return left == 0;
}

static int ascending(const void *one, const void *other) {
    double difference = *(const double *)one - *(const double *)other;
    return (difference > 0) - (difference < 0);
}

static int late(int port, int count, struct text request, long commits, struct text write, double seconds) {
    int poll = epoll_create1(0), writing = epoll_create1(0);
    struct session *sessions = open_sessions(port, count, poll);
    begin_all(sessions, count, poll, request);
    /* Opened now, since nothing would have answered a probe on it. */
    struct session *writer = open_sessions(port, 1, writing);
    double *times = calloc(commits, sizeof *times), until = now() + seconds;
    struct epoll_event event;
    long made = 0;
    while (made < commits && now() < until) {
        double begun = now();
        send_text(writer->socket, write);
        if (!hear_all(sessions, count, poll, made + 1, now() + PATIENCE))
            fail("an update didn't come");
        times[made++] = now() - begun;
        while (writer->replies < made) {
            size_t length = epoll_wait(writing, &event, 1, WAIT_MILLISECONDS) > 0 ? receive(writer->socket) : 0;
            if (length > 0)
                hears_reply(writer, length);
        }
    }
    qsort(times, made, sizeof *times, ascending);
    printf("commits %ld median %.6f late %.6f\n", made, times[made / 2], times[made * 99 / 100]);
    return 0;
}

/* Answers what a connection asks, whole request by whole request; tells whether it goes on. */
static bool answers(struct session *session, struct text request, struct text reply) {
    ssize_t length = recv(session->socket, piece, PIECE, MSG_DONTWAIT);
    if (length == 0 || (length < 0 && errno != EAGAIN))
        return false;
    for (session->got += length < 0 ? 0 : length; session->got >= request.length; session->got -= request.length)
        send_text(session->socket, reply);
    return true;
}

static int can(int port, struct text request, struct text reply) {
    int listener = socket(AF_INET, SOCK_STREAM, 0), one = 1, poll = epoll_create1(0);
    struct sockaddr_in address = loopback(port);
    setsockopt(listener, SOL_SOCKET, SO_REUSEADDR, &one, sizeof one);
    if (bind(listener, (struct sockaddr *)&address, sizeof address) < 0 || listen(listener, EVENTS) < 0)
        fail("listen");
    struct epoll_event event = {.events = EPOLLIN, .data.ptr = NULL}, input = {.events = EPOLLIN, .data.ptr = piece}, events[EVENTS];
    epoll_ctl(poll, EPOLL_CTL_ADD, listener, &event);
    epoll_ctl(poll, EPOLL_CTL_ADD, STDIN_FILENO, &input);
    for (;;) {
        int found = epoll_wait(poll, events, EVENTS, -1);
        for (int place = 0; place < found; place++) {
            struct session *session = events[place].data.ptr;
            if ((void *)session == (void *)piece)
                return 0;
            if (session == NULL) {
                session = calloc(1, sizeof *session);
                session->socket = accept(listener, NULL, NULL);
                send_at_once(session->socket);
                event.data.ptr = session;
                epoll_ctl(poll, EPOLL_CTL_ADD, session->socket, &event);
            } else if (!answers(session, request, reply)) {
                close(session->socket);
                free(session);
            }
        }
    }
}

int main(int count, char **words) {
    const char *what = count > 2 ? words[1] : "";
    int port = count > 2 ? atoi(words[2]) : 0;
    if (count == 6 && strcmp(what, "ask") == 0)
        return ask(port, atoi(words[3]), atof(words[4]), read_file(words[5]));
    if (count == 4 && strcmp(what, "copy") == 0)
        return copy(port, read_file(words[3]));
    if (count == 8 && strcmp(what, "late") == 0)
        return late(port, atoi(words[3]), read_file(words[4]), atol(words[5]), read_file(words[6]), atof(words[7]));
    if (count == 5 && strcmp(what, "can") == 0)
        return can(port, read_file(words[3]), read_file(words[4]));
    fprintf(stderr, "load: ask, copy, late or can, and their words\n");
    return 2;
}
