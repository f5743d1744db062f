/* The resolver of one shard: `resolver PORT PROXIES [VERSION]` serves that many proxies over TCP on
 * the loopback. It starts at VERSION, from -1 on. README.md describes the messages. */
#include <archcaraway_frames.h>

#include <arpa/inet.h>
#include <err.h>
#include <errno.h>
#include <netinet/tcp.h>
#include <poll.h>
#include <stdio.h>
#include <stdlib.h>
#include <string.h>
#include <sys/socket.h>
#include <unistd.h>

enum { CONNECTIONS = 2 * ARCHCARAWAY_MAX_PROXIES, UNKNOWN = -1, HEAD = 13 };

/* A connection with more unsent bytes than this gets no more answers, and isn't read. */
static const size_t QUEUE = 1 << 20;

typedef struct { uint8_t *bytes; size_t length, capacity; } Buffer;

typedef struct {
    int socket; /* or 0 */
    int proxy;  /* or UNKNOWN, until its number has come */
    Buffer in, out;
} Connection;

static Connection connections[CONNECTIONS];
static archcaraway_core core = ARCHCARAWAY_NONE;
static uint32_t proxies;
static uint64_t ended, all; /* a bit per proxy that sends no more, and for all of them */
static int64_t newest[ARCHCARAWAY_MAX_PROXIES]; /* the greatest version that each has sent */

static void reserve(Buffer *buffer, size_t more) {
    if (buffer->length + more <= buffer->capacity) return;
    buffer->capacity = 2 * (buffer->length + more);
    buffer->bytes = realloc(buffer->bytes, buffer->capacity);
    if (buffer->bytes == NULL) err(1, NULL);
}

static void drop_front(Buffer *buffer, size_t count) {
    buffer->length -= count;
    memmove(buffer->bytes, buffer->bytes + count, buffer->length);
}

static void close_connection(Connection *connection) {
    close(connection->socket);
    free(connection->in.bytes);
    free(connection->out.bytes);
    memset(connection, 0, sizeof *connection);
}

/* A proxy that connects again has given up its earlier connection. */
static int greet(Connection *connection) {
    uint32_t proxy = (uint32_t)archcaraway_number(connection->in.bytes, 4);
    if (proxy >= proxies) return 0;
    for (Connection *other = connections; other < connections + CONNECTIONS; other++) {
        if (other->socket != 0 && other->proxy == (int)proxy) close_connection(other);
    }
    connection->proxy = (int)proxy;
    return 1;
}

static void end(int proxy) {
    ended |= UINT64_C(1) << proxy;
    if (ended == all && archcaraway_core_finish(&core) != ARCHCARAWAY_OK) errx(1, "stop");
}

/* A batch that is sent again while it is held would be held twice. A proxy's versions rise. */
static int is_held(int proxy, const uint8_t *frame, size_t length) {
    archcaraway_stats stats;
    if (length < 21) return 0;
    int64_t previous = (int64_t)archcaraway_number(frame + 5, 8);
    int64_t version = (int64_t)archcaraway_number(frame + 13, 8);
    archcaraway_core_stats(&core, &stats);
    if (version <= newest[proxy]) return previous > stats.version && ended != all;
    newest[proxy] = version;
    return 0;
}

/* Takes the frames that have come. Returns 0 if the connection is of no use. */
static int take(Connection *connection) {
    Buffer *in = &connection->in;
    size_t at = 0;
    if (connection->proxy == UNKNOWN) {
        if (in->length < 4) return 1;
        if (!greet(connection)) return 0;
        at = 4;
    }
    while (in->length - at >= 4) {
        const uint8_t *frame = in->bytes + at;
        size_t length = archcaraway_number(frame, 4) + 4;
        if (length > ARCHCARAWAY_MAX_FRAME) return 0;
        if (in->length - at < length) break;
        if (length == 4) {
            end(connection->proxy);
        } else if (!is_held(connection->proxy, frame, length)) {
            int status = archcaraway_core_admit(&core, (uint32_t)connection->proxy, frame, length);
            if (archcaraway_core_stop(&core) != 0) errx(1, "%s", archcaraway_status_text(status));
            if (status != ARCHCARAWAY_OK) return 0; /* nothing was taken */
        }
        at += length;
    }
    drop_front(in, at);
    return 1;
}

static int receive(Connection *connection) {
    reserve(&connection->in, 65536);
    ssize_t count = recv(connection->socket, connection->in.bytes + connection->in.length, 65536,
                         MSG_DONTWAIT);
    if (count < 0) return errno == EAGAIN || errno == EINTR;
    connection->in.length += (size_t)count;
    return count > 0 && take(connection);
}

static int deliver(Connection *connection) {
    Buffer *out = &connection->out;
    ssize_t count = send(connection->socket, out->bytes, out->length, MSG_DONTWAIT | MSG_NOSIGNAL);
    if (count < 0) return errno == EAGAIN || errno == EINTR;
    drop_front(out, (size_t)count);
    return 1;
}

/* Moves answers from the core to the connection, until the queue is full. What doesn't fit is still
 * owed. */
static void answer(Connection *connection) {
    Buffer *out = &connection->out;
    size_t room = 4096;
    while (out->length < QUEUE) {
        size_t length;
        int kind;
        int64_t version;
        reserve(out, HEAD + room);
        uint8_t *at = out->bytes + out->length;
        int status = archcaraway_core_give(&core, (uint32_t)connection->proxy, at + HEAD, room,
                                           &length, &kind, &version);
        if (status == ARCHCARAWAY_BUFFER) {
            room = length;
            continue;
        }
        if (status != ARCHCARAWAY_OK) errx(1, "%s", archcaraway_status_text(status));
        if (kind == ARCHCARAWAY_NOTHING) return;
        archcaraway_spell(at, HEAD - 4 + length, 4);
        at[4] = (uint8_t)kind;
        archcaraway_spell(at + 5, (uint64_t)version, 8);
        out->length += HEAD + length;
    }
}

static void welcome(int listener) {
    int one = 1, socket = accept(listener, NULL, NULL);
    if (socket < 0) return;
    setsockopt(socket, IPPROTO_TCP, TCP_NODELAY, &one, sizeof one);
    for (int i = 0; i < CONNECTIONS; i++) {
        if (connections[i].socket != 0) continue;
        connections[i] = (Connection){.socket = socket, .proxy = UNKNOWN};
        return;
    }
    close(socket);
}

static int listen_on(const char *port) {
    struct sockaddr_in address = {.sin_family = AF_INET, .sin_port = htons((uint16_t)atoi(port))};
    socklen_t length = sizeof address;
    int one = 1, listener = socket(AF_INET, SOCK_STREAM, 0);
    address.sin_addr.s_addr = htonl(INADDR_LOOPBACK);
    setsockopt(listener, SOL_SOCKET, SO_REUSEADDR, &one, sizeof one);
    if (bind(listener, (struct sockaddr *)&address, sizeof address) != 0) err(1, "port %s", port);
    if (listen(listener, CONNECTIONS) != 0) err(1, "listen");
    getsockname(listener, (struct sockaddr *)&address, &length);
    printf("%d\n", ntohs(address.sin_port));
    fflush(stdout);
    return listener;
}

/* Waits until something can be done, and does it. */
static void turn(int listener) {
    struct pollfd polled[CONNECTIONS + 1] = {{listener, POLLIN, 0}};
    for (int i = 0; i < CONNECTIONS; i++) {
        Connection *connection = &connections[i];
        if (connection->socket != 0 && connection->proxy != UNKNOWN) answer(connection);
        polled[i + 1].fd = connection->socket != 0 ? connection->socket : -1;
        polled[i + 1].events = (short)((connection->out.length < QUEUE ? POLLIN : 0) |
                                       (connection->out.length > 0 ? POLLOUT : 0));
    }
    if (poll(polled, CONNECTIONS + 1, -1) < 0 && errno != EINTR) err(1, "poll");
    for (int i = 0; i < CONNECTIONS; i++) {
        Connection *connection = &connections[i];
        int of_use = 1;
        /* Another connection of the same proxy may have closed this one meanwhile. */
        if (connection->socket == 0 || connection->socket != polled[i + 1].fd) continue;
        if (polled[i + 1].revents & POLLOUT) of_use = deliver(connection);
        if (of_use && polled[i + 1].revents & ~POLLOUT) of_use = receive(connection);
        if (!of_use) close_connection(connection);
    }
    if (polled[0].revents & POLLIN) welcome(listener);
}

int main(int count, char **words) {
    if (count < 3) errx(1, "PORT PROXIES [VERSION]");
    proxies = (uint32_t)atoi(words[2]);
    int status = archcaraway_core_new_at(proxies, ARCHCARAWAY_WINDOW, ARCHCARAWAY_LIMIT,
                                         count > 3 ? atoll(words[3]) : -1, &core);
    if (status != ARCHCARAWAY_OK) errx(1, "%s", archcaraway_status_text(status));
    all = UINT64_MAX >> (64 - proxies);
    memset(newest, 0xff, sizeof newest); /* -1 */
    for (int listener = listen_on(words[1]);;) turn(listener);
}
