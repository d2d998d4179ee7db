/* The bytes of a connection: its socket, what waits to leave, what comes, heartbeats, and the loss. For connection.h, which has the calls.
 *
 * Bytes that the session gave away stand in `leaving` until the kernel took them, in their order, or the connection is lost. Nothing waits but
 * lapin_step, which knows until when.
 */
#ifndef LAPIN_TRANSPORT_H
#define LAPIN_TRANSPORT_H

#if defined(__STRICT_ANSI__) && !defined(_POSIX_C_SOURCE) && !defined(_GNU_SOURCE)
#define _POSIX_C_SOURCE 200809L
#endif

#include <errno.h>
#include <netdb.h>
#include <netinet/in.h>
#include <netinet/tcp.h>
#include <poll.h>
#include <pthread.h>
#include <stdarg.h>
#include <stdio.h>
#include <stdlib.h>
#include <string.h>
#include <sys/socket.h>
#include <sys/types.h>
#include <time.h>
#include <unistd.h>

#include "lapin.h"
#include "octets.h"
#include "returned.h"

enum { LAPIN_ENOUGH = 1 << 16, LAPIN_REMEMBERED = 64 };

/* Begins by lapin_connect, ends by lapin_disconnect; nobody copies it. The timeout is the caller's to set: -1, as it begins, is for ever. */
typedef struct {
    int timeout;
    int socket; /* -1 where there is none */
    bool is_lost;
    volatile bool is_inside; /* a call goes on */
    const unsigned *forks; /* how often the process was forked, as its children count */
    unsigned generation;
    const void *thread;
    lapin_opening limits;
    lapin_clock clock;
    lapin_handle session;
    char *room, *answer, *method, *leaving, *server_properties;
    size_t room_length, answer_length, method_length, leaving_length, leaving_from, leaving_to, server_properties_length;
    size_t waiting; /* about how many bytes of publishes the session holds */
    lapin_fields fields; /* of the last reply; its octets are the answer */
    lapin_publications publications;
    lapin_kept *back;
    lapin_returned returned;
    struct { uint64_t consumer; uint16_t channel; } consumers[LAPIN_REMEMBERED];
    char lost[1000], error[1100];
} lapin_connection;

/* ---- what the calls below share. A thread is told by the address of its errno */

/* Why the last call failed. */
static inline const char *lapin_error(const lapin_connection *c) {
    return !c->thread ? "there is no connection" : c->thread == &errno ? c->error : "another thread uses this connection";
}

static inline uint64_t lapin_now(void) {
    struct timespec now;
    clock_gettime(CLOCK_MONOTONIC, &now);
    return (uint64_t)now.tv_sec * 1000 + (uint64_t)now.tv_nsec / 1000000;
}

static inline uint64_t lapin_until(int timeout) { return timeout < 0 ? UINT64_MAX : lapin_now() + (uint64_t)timeout; }

/* For poll: up to then, in pieces of a minute. */
static inline int lapin_left(uint64_t now, uint64_t until) {
    uint64_t left = until > now ? until - now : 0;
    return left < 60000 ? (int)left : 60000;
}

#if defined(__GNUC__)
__attribute__((format(printf, 2, 3)))
#endif
static inline bool lapin_fails(lapin_connection *c, const char *words, ...) {
    char text[sizeof c->error]; /* the words may have the error that is there */
    va_list given;
    va_start(given, words);
    vsnprintf(text, sizeof text, words, given);
    va_end(given);
    strcpy(c->error, text);
    for (char *at = c->error; *at; at++)
        if ((unsigned char)*at < ' ' || *at == 127) *at = ' '; /* a broker's text moves no terminal */
    return false;
}

static inline bool lapin_enter(lapin_connection *c) {
    if (c->thread != &errno) return false;
    if (c->is_inside) return lapin_fails(c, "ConnectionLost: another call still goes on, or a jump left it");
    c->is_inside = true;
    return true;
}

static inline bool lapin_fit(char **room, size_t *length, size_t wanted) {
    if (wanted <= *length) return true;
    char *more = wanted < SIZE_MAX / 2 ? (char *)realloc(*room, 2 * wanted) : NULL;
    if (!more) return false;
    *room = more, *length = 2 * wanted;
    return true;
}

static inline void lapin_wipe(void *bytes, size_t length) {
    for (volatile char *at = (volatile char *)bytes; length; length--) *at++ = 0;
}

/* The octets of the last answer, with a zero behind them; NULL where there is no memory. */
static inline char *lapin_told(lapin_connection *c) {
    if (!lapin_fit(&c->answer, &c->answer_length, lapin_answer_length(&c->session) + 1)) return lapin_fails(c, "no memory"), (char *)NULL;
    c->answer[lapin_answer(&c->session, c->answer, c->answer_length - 1)] = 0;
    return c->answer;
}

/* A refusal by its kind and what that kind has. */
static inline const char *lapin_named(const lapin_refusal *why, char *room, size_t length) {
    static const char *const STATES[] = {"closed", "opening", "open", "closing", "crossed", "base", "down"};
    static const char *const NAMES[] = {"?", "NoMemory", "NumbersUsedUp", "", "", "ConnectionLost", "", "", "AlreadyTaken", "UnknownTicket", ""};
    unsigned long long tag = why->tag, current = why->current, limit = why->limit;
    if (why->kind == LAPIN_WHY_CHANNEL_STATE) snprintf(room, length, "InvalidChannelState %s", why->state < 7 ? STATES[why->state] : "?");
    else if (why->kind == LAPIN_WHY_PROTOCOL_ERROR) snprintf(room, length, "ProtocolError %u", why->code);
    else if (why->kind == LAPIN_WHY_UNEXPECTED_FRAME) snprintf(room, length, "UnexpectedFrame %u %u", why->class_id, why->method_id);
    else if (why->kind == LAPIN_WHY_PRECONDITION) snprintf(room, length, "PreconditionFailed %llu %llu", tag, current);
    else if (why->kind == LAPIN_WHY_OUTSTANDING) snprintf(room, length, "ConfirmsOutstanding %llu", limit);
    else snprintf(room, length, "%s", NAMES[why->kind < 11 ? why->kind : 0]);
    return room;
}

/* What the broker said as it closed a channel, or by channel 0 the connection, where that is why; else nothing. */
static inline const char *lapin_words(lapin_connection *c, uint16_t channel, const lapin_refusal *why, char *room, size_t length) {
    lapin_close_reason reason;
    const char *text;
    bool is_code = why->kind == LAPIN_WHY_PROTOCOL_ERROR, is_state = why->kind == LAPIN_WHY_CHANNEL_STATE;
    if (is_state && why->state != LAPIN_CHANNEL_CLOSED && why->state != LAPIN_CHANNEL_DOWN) return "";
    if (!is_code && !is_state && why->kind != LAPIN_WHY_CONNECTION_LOST) return "";
    for (int is_channel = channel > 0; is_channel >= 0; is_channel--) {
        if (lapin_last_close(&c->session, is_channel ? channel : 0, &reason) != LAPIN_DONE || !(text = lapin_told(c))) continue;
        if (is_code && why->code != reason.code) continue;
        snprintf(room, length, "; the broker's last close of the %s: %u %s (class %u, method %u)", is_channel ? "channel" : "connection", reason.code, text,
                 reason.class_id, reason.method_id);
        return room;
    }
    return "";
}

/* The socket is gone: every call that waits fails by ConnectionLost, and so does each publish that is open. */
static inline bool lapin_lose(lapin_connection *c, const char *why) {
    if (!c->is_lost) {
        char words[400], text[sizeof c->lost];
        lapin_refusal lost;
        memset(&lost, 0, sizeof lost), lost.kind = LAPIN_WHY_CONNECTION_LOST;
        snprintf(text, sizeof text, "%.500s%s", why, lapin_words(c, 0, &lost, words, sizeof words));
        strcpy(c->lost, text);
        c->is_lost = true;
        if (c->socket >= 0) close(c->socket);
        c->socket = -1;
        if (lapin_lost(&c->session) == LAPIN_NO_MEMORY) lapin_lost(&c->session);
    }
    return lapin_fails(c, "ConnectionLost: %s", c->lost);
}

/* A child counts one more than its parent. */
static inline unsigned *lapin_forks(void) {
    static unsigned forks;
    return &forks;
}
static inline void lapin_forked(void) { ++*lapin_forks(); }
static inline void lapin_count_forks(void) { pthread_atfork(NULL, NULL, lapin_forked); }

static inline bool lapin_is_alive(lapin_connection *c) {
    if (c->is_lost) return lapin_lose(c, c->lost);
    return c->generation == *c->forks || lapin_lose(c, "this process was forked from the one that opened it");
}

/* ---- bytes out and in */

/* What waits to leave has room for so many bytes more. */
static inline char *lapin_more_leaving(lapin_connection *c, size_t length) {
    if (c->leaving_from) memmove(c->leaving, c->leaving + c->leaving_from, c->leaving_to - c->leaving_from);
    c->leaving_to -= c->leaving_from, c->leaving_from = 0;
    if (lapin_fit(&c->leaving, &c->leaving_length, c->leaving_to + length)) return c->leaving + c->leaving_to;
    return lapin_fails(c, "no memory"), (char *)NULL;
}

/* Takes what may leave out of the session, until so many bytes wait: where fewer do, that was all. */
static inline bool lapin_collect_up_to(lapin_connection *c, size_t enough) {
    while (c->leaving_to - c->leaving_from < enough) {
        uint32_t status = lapin_send(&c->session, true, LAPIN_ENOUGH);
        if (status == LAPIN_NO_MEMORY) return lapin_fails(c, "no memory");
        if (status) return lapin_lose(c, status == LAPIN_TOO_LONG ? "a frame was too long" : "the session takes nothing further");
        size_t length = lapin_leaving_length(&c->session);
        char *room = length ? lapin_more_leaving(c, length) : c->leaving;
        if (length && !room) return false;
        if (length) c->leaving_to += lapin_leaving(&c->session, room, length);
        if (length < LAPIN_ENOUGH) {
            c->waiting = 0;
            return true;
        }
    }
    return true;
}

/* The same until some 64 KiB wait. */
static inline bool lapin_collect(lapin_connection *c) { return lapin_collect_up_to(c, LAPIN_ENOUGH); }

/* Hands bytes of the broker to the session. */
static inline bool lapin_take_in(lapin_connection *c, const void *bytes, size_t length) {
    lapin_count_returns(&c->publications, (const unsigned char *)bytes, length);
    c->publications.swept = c->publications.settled;
    uint32_t status = lapin_receive(&c->session, bytes, length);
    while (status == LAPIN_REFUSED) status = lapin_receive(&c->session, bytes, 0);
    if (status == LAPIN_DONE) return true;
    return lapin_lose(c, status == LAPIN_MALFORMED || status == LAPIN_TOO_LONG ? "what came is no frame" : "no memory for what came");
}

static inline bool lapin_is_later(int error) { return error == EAGAIN || error == EWOULDBLOCK || error == EINTR; }

/* Reads what is there, once. */
static inline bool lapin_hear(lapin_connection *c) {
    ssize_t length = recv(c->socket, c->room, c->room_length, 0);
    if (length < 0 && lapin_is_later(errno)) return true;
    if (length <= 0) return lapin_lose(c, length ? strerror(errno) : "the broker hung up");
    c->clock.heard = lapin_now();
    return lapin_take_in(c, c->room, (size_t)length);
}

/* Sends what may leave, as far as the kernel takes it at once. Where it takes nothing further, what the broker still said is heard first. */
static inline bool lapin_push(lapin_connection *c) {
    for (;;) {
        if (!lapin_collect(c)) return false;
        size_t length = c->leaving_to - c->leaving_from;
        if (!length) return true;
        ssize_t done = send(c->socket, c->leaving + c->leaving_from, length, MSG_NOSIGNAL);
        if (done >= 0) {
            c->leaving_from += (size_t)done, c->clock.sent = lapin_now();
            if ((size_t)done == length && length < LAPIN_ENOUGH) return true;
        } else if (errno == EAGAIN || errno == EWOULDBLOCK) return true;
        else if (errno != EINTR) {
            const char *why = strerror(errno);
            for (int i = 0; i < 16 && !c->is_lost; i++) lapin_hear(c);
            return lapin_lose(c, why);
        }
    }
}

/* What a wait ended by. */
enum { LAPIN_FAILED, LAPIN_LATE, LAPIN_CAME, LAPIN_TAKES };

/* What the clock says, as lapin_beat does; where a heartbeat is due it waits to leave then. */
static inline uint32_t lapin_pulse(lapin_connection *c, uint64_t now, uint64_t *wait) {
    uint32_t due = lapin_beat(&c->clock, now, wait);
    if (due == LAPIN_SILENT) lapin_lose(c, "the broker was silent for two heartbeats");
    if (due != LAPIN_SEND) return due;
    char *room = c->leaving_from < c->leaving_to ? NULL : lapin_more_leaving(c, 8);
    if (room) memcpy(room, LAPIN_HEARTBEAT, 8), c->leaving_to += 8;
    c->clock.sent = now; /* what waits is a sign of life as well, once it leaves */
    return due;
}

/* Waits until bytes came, and hears them; until the socket takes bytes again, where some wait; or until then. */
static inline int lapin_step(lapin_connection *c, uint64_t until) {
    bool is_full = c->leaving_from < c->leaving_to;
    uint64_t now = lapin_now(), beat = 0;
    uint32_t due = lapin_pulse(c, now, &beat);
    if (due == LAPIN_SILENT) return LAPIN_FAILED;
    if (due == LAPIN_SEND) return LAPIN_TAKES;
    struct pollfd ready = {c->socket, (short)(is_full ? POLLIN | POLLOUT : POLLIN), 0};
    int found = poll(&ready, 1, lapin_left(now, due == LAPIN_WAIT && until > now && beat < until - now ? now + beat : until));
    if (found < 0 && errno != EINTR) return lapin_lose(c, strerror(errno)), LAPIN_FAILED;
    if (found > 0 && ready.revents & ~POLLOUT) return lapin_hear(c) ? LAPIN_CAME : LAPIN_FAILED;
    return found > 0 || lapin_now() < until ? LAPIN_TAKES : LAPIN_LATE;
}

static inline bool lapin_turn_until(lapin_connection *c, uint64_t until) {
    while (lapin_push(c)) {
        int event = lapin_step(c, until);
        if (event == LAPIN_CAME) return lapin_push(c);
        if (event != LAPIN_TAKES) return event == LAPIN_LATE;
    }
    return false;
}

static inline bool lapin_flush_until(lapin_connection *c, uint64_t until) {
    while (lapin_push(c)) {
        if (c->leaving_from == c->leaving_to) return true;
        int event = lapin_step(c, until);
        if (event == LAPIN_FAILED) return false;
        if (event == LAPIN_LATE || lapin_now() >= until) return lapin_fails(c, "TimedOut: the broker takes no bytes now; they leave later");
    }
    return false;
}

/* Sends what may leave, all of it within the timeout, and takes what comes meanwhile, so that neither side waits for the other for ever. */
static inline bool lapin_flush(lapin_connection *c) {
    int before = errno;
    if (!lapin_enter(c)) return false;
    bool is_done = lapin_is_alive(c) && lapin_flush_until(c, lapin_until(c->timeout));
    c->is_inside = false, errno = before;
    return is_done;
}

/* Sends what may leave, and takes what comes within the time; -1 for ever. Heartbeats go out meanwhile. It ends by the first bytes that come. */
static inline bool lapin_turn(lapin_connection *c, int timeout) {
    int before = errno;
    if (!lapin_enter(c)) return false;
    bool is_done = lapin_is_alive(c) && lapin_turn_until(c, lapin_until(timeout));
    c->is_inside = false, errno = before;
    return is_done;
}

#endif
