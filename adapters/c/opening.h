/* The opening of a connection: the socket, what is told of this side, and the frames up to the agreed limits. For connection.h, which has the calls.
 *
 * Nothing is sent before the caller's properties were found to be a table's content. The password stands in no memory of the connection afterwards.
 */
#ifndef LAPIN_OPENING_H
#define LAPIN_OPENING_H

#include "transport.h"

enum { LAPIN_OPENING_TIME = 30000 };

/* Connects to the first address of a name that answers; each has its share of the time. To look the name up takes its own time. */
static inline bool lapin_dial(lapin_connection *c, const char *host, const char *port, uint64_t until) {
    struct addrinfo *found, *each, hints;
    memset(&hints, 0, sizeof hints), hints.ai_socktype = SOCK_STREAM;
    int wrong = getaddrinfo(host, port, &hints, &found), left = 0, on = 1;
    if (wrong) return lapin_fails(c, "no such host: %s: %s", host, gai_strerror(wrong));
    lapin_fails(c, "nobody answers at %s:%s", host, port);
    for (each = found; each; each = each->ai_next) left++;
    for (each = found; each && c->socket < 0; each = each->ai_next, left--) {
        uint64_t now = lapin_now(), share = until == UINT64_MAX || until < now ? until : now + (until - now) / (uint64_t)left;
        int error = 0, one = socket(each->ai_family, SOCK_STREAM | SOCK_NONBLOCK | SOCK_CLOEXEC, 0);
        socklen_t size = sizeof error;
        if (one < 0 || (connect(one, each->ai_addr, each->ai_addrlen) && errno != EINPROGRESS && errno != EINTR)) error = errno;
        struct pollfd ready = {one, POLLOUT, 0};
        int is_there = error != 0;
        while (!is_there && ((is_there = poll(&ready, 1, lapin_left(lapin_now(), share))) < 0 ? errno == EINTR : !is_there && lapin_now() < share)) is_there = 0;
        if (!error && is_there <= 0) error = is_there ? errno : ETIMEDOUT;
        if (!error && getsockopt(one, SOL_SOCKET, SO_ERROR, &error, &size)) error = errno;
        if (!error) c->socket = one;
        else lapin_fails(c, "nobody answers at %s:%s: %s", host, port, strerror(error));
        if (error && one >= 0) close(one);
    }
    freeaddrinfo(found);
    return c->socket >= 0 && (setsockopt(c->socket, IPPROTO_TCP, TCP_NODELAY, &on, sizeof on), true);
}

/* Waits for the socket within the opening. */
static inline bool lapin_awaits(lapin_connection *c, short event, uint64_t until) {
    struct pollfd ready = {c->socket, event, 0};
    for (;;) {
        int found = poll(&ready, 1, lapin_left(lapin_now(), until));
        if (found > 0) return true;
        if (found < 0 && errno != EINTR) return lapin_fails(c, "%s", strerror(errno));
        if (lapin_now() >= until) return lapin_fails(c, "TimedOut: the broker did not open the connection in time");
    }
}

/* Sends bytes of the opening. */
static inline bool lapin_greets(lapin_connection *c, const char *bytes, size_t length, uint64_t until) {
    while (length) {
        if (!lapin_awaits(c, POLLOUT, until)) return false;
        ssize_t done = send(c->socket, bytes, length, MSG_NOSIGNAL);
        if (done < 0 && !lapin_is_later(errno)) return lapin_fails(c, "the broker hung up within the opening: %s", strerror(errno));
        if (done > 0) bytes += done, length -= (size_t)done;
    }
    return true;
}

/* What is asked for beside host, user, password and virtual host. Begins as LAPIN_OPTIONS. */
typedef struct {
    lapin_opening limits; /* and the mechanism: LAPIN_PLAIN, LAPIN_AMQPLAIN or LAPIN_EXTERNAL, which tells neither user nor password */
    const char *connection_name; /* what the broker's management shows; NULL for none */
    const void *properties; /* further pairs of the client's properties, as the content of a table; see lapin_shake */
    size_t properties_length;
} lapin_options;

#define LAPIN_OPTIONS {{0, 131072, 2047, 60, LAPIN_PLAIN}, NULL, NULL, 0}

/* The pairs of the client's properties, with the name of the connection behind them; NULL where there is no memory. The caller's to free. */
static inline char *lapin_pairs(const lapin_options *options, size_t *length) {
    static const char name[] = "\x0f" "connection_nameS";
    size_t more = options->connection_name ? strlen(options->connection_name) : 0, at = options->properties_length;
    char *pairs = (char *)malloc(at + sizeof name + 4 + more);
    if (!pairs) return NULL;
    if (at) memcpy(pairs, options->properties, at);
    if (options->connection_name) {
        memcpy(pairs + at, name, sizeof name - 1), at += sizeof name - 1;
        for (int shift = 24; shift >= 0; shift -= 8) pairs[at++] = (char)(more >> shift & 255);
        memcpy(pairs + at, options->connection_name, more), at += more;
    }
    *length = at;
    return pairs;
}

/* Keeps the broker's own properties, which stand in its first frame. */
static inline bool lapin_keeps_properties(lapin_connection *c, const unsigned char *frame, size_t length) {
    lapin_range place = {0, 0};
    if (c->server_properties || lapin_server_properties(frame, length, &place)) return true;
    c->server_properties = (char *)malloc(place.count + 1);
    if (!c->server_properties) return lapin_fails(c, "no memory");
    memcpy(c->server_properties, frame + place.at, place.count), c->server_properties_length = place.count;
    return true;
}

/* The opening: the broker is answered until the connection is open. What came behind it is the session's. */
static inline bool lapin_greet(lapin_connection *c, const char *user, const char *password, const char *vhost, const char *pairs, size_t pairs_length,
                               uint64_t until) {
    unsigned char came[8192];
    size_t length = 0, written = 0, room = 1024 + 2 * (strlen(user) + strlen(password) + strlen(vhost)) + pairs_length;
    uint16_t code = 0;
    if (!lapin_fit(&c->leaving, &c->leaving_length, room)) return lapin_fails(c, "no memory");
    memset(c->leaving, 0, c->leaving_length); /* so that whether a password stayed there can be looked for in all of it */
    uint32_t status = lapin_shake(&c->limits, came, 0, user, strlen(user), password, strlen(password), vhost, strlen(vhost), pairs, pairs_length,
                                  c->leaving, c->leaving_length, &written, &code);
    if (status != LAPIN_PENDING) return lapin_fails(c, status == LAPIN_NO_MEMORY ? "no memory" : "the client's properties can't be told");
    if (!lapin_greets(c, LAPIN_HEADER, 8, until)) return false;
    while (c->limits.stage != 3) {
        if (!lapin_awaits(c, POLLIN, until)) return false;
        ssize_t more = recv(c->socket, came + length, sizeof came - length, 0);
        if (more < 0 && lapin_is_later(errno)) continue;
        if (more <= 0) return lapin_fails(c, "the broker hung up within the opening: wrong user, password or virtual host");
        length += (size_t)more;
        while (length && c->limits.stage != 3) {
            bool is_first = c->limits.stage == 0;
            written = 0;
            status = lapin_shake(&c->limits, came, length, user, strlen(user), password, strlen(password), vhost, strlen(vhost), pairs, pairs_length,
                                 c->leaving, c->leaving_length, &written, &code);
            bool has_left = lapin_greets(c, c->leaving, written, until);
            lapin_wipe(c->leaving, written);
            if (!has_left) return false;
            if (status == LAPIN_PENDING && length < sizeof came) break;
            if (status != LAPIN_DONE) return lapin_fails(c, "the connection was not opened: code %u, status %u", code, status);
            if (is_first && !lapin_keeps_properties(c, came, length)) return false;
            size_t read = lapin_frame_length(came);
            memmove(came, came + read, length -= read);
        }
        if (lapin_now() >= until && c->limits.stage != 3) return lapin_fails(c, "TimedOut: the broker did not open the connection in time");
    }
    c->clock.sent = c->clock.heard = lapin_now(), c->clock.seconds = c->limits.heartbeat;
    if (lapin_open(&c->session, c->limits.frame_max)) return lapin_fails(c, "no memory");
    return !length || lapin_take_in(c, came, length);
}

/* Opens a connection within the time, as the options say. Also where that failed, lapin_disconnect lets go of all. */
static inline bool lapin_connect_with(lapin_connection *c, const char *host, const char *port, const char *user, const char *password,
                                      const char *vhost, const lapin_options *options, int timeout) {
    int before = errno;
    uint64_t until = lapin_until(timeout);
    static pthread_once_t once = PTHREAD_ONCE_INIT;
    pthread_once(&once, lapin_count_forks);
    memset(c, 0, sizeof *c);
    c->timeout = c->socket = -1, c->thread = &errno, c->forks = lapin_forks(), c->generation = *c->forks;
    c->limits = options->limits, c->limits.stage = 0;
    struct timespec now;
    clock_gettime(CLOCK_REALTIME, &now);
    c->publications.keys[0] = (uint64_t)now.tv_nsec * 0x9e3779b97f4a7c15u ^ (uint64_t)(uintptr_t)c;
    c->publications.keys[1] = (uint64_t)now.tv_sec << 32 ^ (uint64_t)(uintptr_t)&lapin_version ^ (uint64_t)(uintptr_t)&now;
    size_t length = 0;
    char *pairs = lapin_pairs(options, &length);
    bool is_open = (pairs && lapin_fit(&c->room, &c->room_length, 1 << 16)) || lapin_fails(c, "no memory");
    is_open = is_open && lapin_dial(c, host, port, until) && lapin_greet(c, user, password, vhost, pairs, length, until);
    free(pairs);
    if (!is_open) {
        c->is_lost = true;
        snprintf(c->lost, sizeof c->lost, "%.500s", c->error);
        if (c->socket >= 0) close(c->socket);
        c->socket = -1;
    }
    errno = before;
    return is_open;
}

/* The same with limits of this side alone: see lapin_opening. */
static inline bool lapin_connect_within(lapin_connection *c, const char *host, const char *port, const char *user, const char *password,
                                        const char *vhost, const lapin_opening *limits, int timeout) {
    lapin_options options = LAPIN_OPTIONS;
    options.limits = *limits;
    return lapin_connect_with(c, host, port, user, password, vhost, &options, timeout);
}

/* Opens a connection within half a minute, with the limits of most. */
static inline bool lapin_connect(lapin_connection *c, const char *host, const char *port, const char *user, const char *password, const char *vhost) {
    lapin_options options = LAPIN_OPTIONS;
    return lapin_connect_with(c, host, port, user, password, vhost, &options, LAPIN_OPENING_TIME);
}

/* The limits that both sides keep, and the mechanism that was said. */
static inline lapin_opening lapin_agreed(const lapin_connection *c) { return c->limits; }

/* What the broker told of itself, as the content of a table of *length octets: its product, its version, its cluster_name .. It is good until
 * lapin_disconnect; NULL where the broker told nothing. */
static inline const char *lapin_told_by_broker(const lapin_connection *c, size_t *length) {
    *length = c->server_properties_length;
    return c->server_properties;
}

#endif
