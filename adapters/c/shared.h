/* A connection that many threads use, over lapin.h: publishes with their outcomes, messages, calls that wait, and the end, from any thread.
 *
 * Each thread has a lapin_caller of its own, which has its time limit, its last error and its last answer, so that nobody overwrites another one's.
 * Each call is one step under one lock; a wait frees it. A thread of the connection's own has the socket, reads, and sends heartbeats, whatever the
 * others do. A publish waits for no socket, but for room where more waits to leave than the bounds allow. The calls of each thread leave in their
 * order; what nobody waits for leaves within a few milliseconds. Handlers run outside the lock, in the thread that asks for messages.
 *
 * A function that can fail answers false, NULL, 0 or LAPIN_ERROR, and lapin_shared_error(mine) says why, with the broker's words; errno stays as it
 * was. Times are milliseconds, -1 for ever; mine->timeout limits the calls that are given none. Signals change nothing; no call is for a signal's
 * handler, and no jump and no exception of one may leave a call. A thread that is cancelled ends behind its call. In a process that was forked each
 * call fails and says so, and the parent's connection goes on. POSIX threads; include it first where you compile by a strict standard.
 */
#ifndef LAPIN_SHARED_H
#define LAPIN_SHARED_H

#include "sharing.h"

/* Why the last call of this caller failed. */
static inline const char *lapin_shared_error(const lapin_caller *mine) {
    return mine->is_inside ? "another thread is within a call of this caller" : mine->error;
}

/* ---- the beginning: the first caller connects, others join */

static inline bool lapin_start_thread(lapin_shared *s) {
    lapin_connection *c = &s->core;
    pthread_mutexattr_t kind;
    sigset_t all, before;
    if (socketpair(AF_UNIX, SOCK_STREAM | SOCK_NONBLOCK | SOCK_CLOEXEC, 0, s->calls)) return lapin_fails(c, "%s", strerror(errno));
    if ((s->socket = fcntl(c->socket, F_DUPFD_CLOEXEC, 0)) < 0) return lapin_fails(c, "%s", strerror(errno));
    int wrong = pthread_mutexattr_init(&kind);
    if (!wrong) {
        if (!(wrong = pthread_mutexattr_settype(&kind, PTHREAD_MUTEX_ERRORCHECK))) wrong = pthread_mutex_init(&s->lock, &kind);
        pthread_mutexattr_destroy(&kind);
    }
    if (wrong) return lapin_fails(c, "%s", strerror(wrong));
    sigfillset(&all);
    pthread_sigmask(SIG_SETMASK, &all, &before); /* no handler runs in it */
    wrong = pthread_create(&s->thread, NULL, lapin_serve, s);
    pthread_sigmask(SIG_SETMASK, &before, NULL);
    if (!wrong) return true;
    pthread_mutex_destroy(&s->lock);
    return lapin_fails(c, "the connection's thread: %s", strerror(wrong));
}

static inline void lapin_close_all(lapin_shared *s) {
    int *all[] = {&s->socket, &s->calls[0], &s->calls[1]};
    for (size_t i = 0; i < 3; i++) {
        if (*all[i] >= 0) close(*all[i]);
        *all[i] = -1;
    }
}

/* The connection goes, of which no thread is there. */
static inline void lapin_free_shared(lapin_shared *s) {
    lapin_close_all(s);
    lapin_move_here(&s->core);
    lapin_disconnect(&s->core);
    free(s);
}

static inline bool lapin_begin_caller(lapin_caller *mine) {
    pthread_condattr_t kind;
    memset(mine, 0, sizeof *mine);
    mine->timeout = -1;
    if (pthread_condattr_init(&kind)) return lapin_says(mine, "no memory");
    bool is_made = !pthread_condattr_setclock(&kind, CLOCK_MONOTONIC) && !pthread_cond_init(&mine->woken, &kind);
    pthread_condattr_destroy(&kind);
    return is_made || lapin_says(mine, "no condition to wait by");
}

/* Opens a connection within the time, as the options say, and its first caller. The bounds are of all callers together. Where it fails
 * lapin_shared_error says why, and there is nothing to leave. */
static inline bool lapin_shared_connect_with(lapin_caller *mine, const char *host, const char *port, const char *user, const char *password,
                                             const char *vhost, const lapin_options *options, const lapin_bounds *bounds, int timeout) {
    int before = errno, cancel = PTHREAD_CANCEL_ENABLE;
    if (!lapin_begin_caller(mine)) return false;
    lapin_shared *s = (lapin_shared *)calloc(1, sizeof *s);
    if (!s) return pthread_cond_destroy(&mine->woken), lapin_says(mine, "no memory");
    s->socket = s->calls[0] = s->calls[1] = -1, s->bounds = *bounds, s->callers = 1;
    pthread_setcancelstate(PTHREAD_CANCEL_DISABLE, &cancel);
    bool is_open = lapin_connect_with(&s->core, host, port, user, password, vhost, options, timeout) && lapin_start_thread(s);
    if (is_open) mine->shared = s;
    else lapin_says(mine, s->core.error), pthread_cond_destroy(&mine->woken), lapin_free_shared(s);
    pthread_setcancelstate(cancel, NULL);
    errno = before;
    return is_open;
}

/* Opens a connection within half a minute, with the limits of most and at most 1 MiB that waits to leave. */
static inline bool lapin_shared_connect(lapin_caller *mine, const char *host, const char *port, const char *user, const char *password,
                                        const char *vhost) {
    lapin_options options = LAPIN_OPTIONS;
    lapin_bounds bounds = LAPIN_BOUNDS;
    return lapin_shared_connect_with(mine, host, port, user, password, vhost, &options, &bounds, LAPIN_OPENING_TIME);
}

/* One more caller of a connection, for another thread: first->shared is that of one that has not left. */
static inline bool lapin_shared_join(lapin_caller *mine, lapin_shared *shared) {
    if (!lapin_begin_caller(mine)) return false;
    mine->shared = shared;
    if (!lapin_begin(mine)) return pthread_cond_destroy(&mine->woken), mine->shared = NULL, false;
    shared->callers++;
    lapin_finish(mine);
    return true;
}

/* ---- publishes and their outcomes */

/* Has room for so many octets, of a publish or of a call, within the caller's time. */
static inline bool lapin_find_room(lapin_caller *mine, size_t size, bool is_publish) {
    lapin_shared *s = mine->shared;
    if (!(is_publish && s->rooms) && lapin_has_room(s, size, is_publish)) return true;
    mine->size = size, mine->number = is_publish;
    bool has_come = lapin_await(mine, LAPIN_FOR_ROOM, mine->timeout);
    if (has_come && mine->is_well) s->granted_octets -= size, s->granted -= is_publish;
    if (has_come) return mine->is_well;
    snprintf(mine->error, sizeof mine->error, "TimedOut: %zu octets and %zu publishes wait; nothing was done%s", lapin_octets_waiting(s),
             lapin_publishes_open(s), lapin_is_blocked(&s->core.session) ? "; the broker takes no messages now" : "");
    return false;
}

static inline bool lapin_goes_on(lapin_caller *mine) {
    lapin_connection *c = &mine->shared->core;
    return !c->is_lost || (lapin_lose(c, c->lost), lapin_own_error(mine));
}

static inline bool lapin_publish_under(lapin_caller *mine, uint16_t channel, bool mandatory, const lapin_returned *message, uint64_t *confirm) {
    lapin_shared *s = mine->shared;
    size_t size = message->body.length + message->properties.length + 64;
    if (!lapin_goes_on(mine)) return false;
    if (!message->properties.at) return lapin_says(mine, "publish: its properties were not written whole");
    if (!lapin_find_room(mine, size, true)) return false;
    if (!lapin_queue_up(&s->core, channel, mandatory, message, confirm)) return lapin_own_error(mine);
    s->is_dirty = true;
    if (s->is_full) return true;
    if (s->core.waiting >= LAPIN_SOME) lapin_send_off(s);
    else lapin_nudge(s, false);
    return true;
}

/* Queues a publish: true, and the number of its confirm, which any thread may ask for; of NULL nobody asks. It waits for nothing but room, within
 * the caller's time; where it answers false nothing was published. The properties are a list, as lapin_put_properties writes it; NULL for none. */
static inline bool lapin_shared_publish(lapin_caller *mine, uint16_t channel, const char *exchange, const char *routing_key, bool mandatory,
                                        const void *body, size_t length, const lapin_octets *properties, uint64_t *confirm) {
    uint64_t number = 0;
    lapin_returned message = lapin_outgoing(exchange, routing_key, body, length, properties);
    if (!lapin_begin(mine)) return false;
    bool is_done = lapin_publish_under(mine, channel, mandatory, &message, &number);
    if (confirm) *confirm = number;
    else if (is_done) lapin_put_aside(&mine->shared->core, number);
    lapin_finish(mine);
    return is_done;
}

/* Waits for the outcome of a publish, which is given once, to whoever asked first: ACK, RETURNED, NACK, NOT_REQUESTED, or ERROR, of which nothing is
 * known but what lapin_shared_error tells. NONE: it didn't come within the time, and may be asked for again. */
static inline uint32_t lapin_shared_wait(lapin_caller *mine, uint64_t confirm, int timeout) {
    if (!lapin_begin(mine)) return LAPIN_ERROR;
    mine->number = confirm;
    bool has_come = lapin_await(mine, LAPIN_FOR_OUTCOME, timeout);
    uint32_t outcome = has_come ? mine->outcome : (uint32_t)LAPIN_NONE;
    if (!outcome) lapin_says(mine, "TimedOut: no outcome in time");
    lapin_finish(mine);
    return outcome;
}

/* The outcome of a publish as lapin_shared_wait says it, or NONE where there is none yet. */
static inline uint32_t lapin_shared_settled(lapin_caller *mine, uint64_t confirm) {
    if (!lapin_begin(mine)) return LAPIN_ERROR;
    mine->number = confirm;
    uint32_t outcome = lapin_look_for(mine, LAPIN_FOR_OUTCOME) ? mine->outcome : (uint32_t)LAPIN_NONE;
    lapin_finish(mine);
    return outcome;
}

/* The message that came back with the outcome that this caller was told last, NULL where none did. It is good until it is told the next one. */
static inline const lapin_returned *lapin_shared_came_back(const lapin_caller *mine) { return mine->back ? &mine->back->message : NULL; }

/* Nobody will ask for the outcome of this publish. */
static inline void lapin_shared_set_aside(lapin_caller *mine, uint64_t confirm) {
    if (!lapin_begin(mine)) return;
    lapin_put_aside(&mine->shared->core, confirm);
    lapin_finish(mine);
}

/* Waits until all that was made before is the kernel's. */
static inline bool lapin_shared_flush(lapin_caller *mine) {
    if (!lapin_begin(mine)) return false;
    bool has_come = lapin_await(mine, LAPIN_FOR_LEAVING, mine->timeout), is_done = has_come && mine->is_well;
    if (!has_come) lapin_says(mine, "TimedOut: the broker takes no bytes now; they leave later");
    lapin_finish(mine);
    return is_done;
}

/* Whether the broker said last that it takes no messages. */
static inline bool lapin_shared_is_blocked(lapin_caller *mine) {
    if (!lapin_begin(mine)) return false;
    bool is_blocked = lapin_is_blocked(&mine->shared->core.session);
    lapin_finish(mine);
    return is_blocked;
}

/* Waits until the broker takes no messages, or takes them, as wanted. */
static inline bool lapin_shared_await_blocked(lapin_caller *mine, bool wanted, int timeout) {
    if (!lapin_begin(mine)) return false;
    mine->number = wanted;
    bool has_come = lapin_await(mine, LAPIN_FOR_BLOCKED, timeout), is_done = has_come && mine->is_well;
    if (!has_come) lapin_says(mine, "TimedOut: nothing came in time");
    lapin_finish(mine);
    return is_done;
}

/* ---- messages of consumers */

/* The next message of any of these consumers within the time, and whose it is by its place; *place is as lapin_next_of has it. Any number of threads
 * may ask for those of one consumer: each message is given once, the first one to who asked first. Its octets are good until this caller's next call
 * that has an answer: an ack and a publish have none. */
static inline bool lapin_shared_next_of(lapin_caller *mine, const uint64_t *consumers, size_t count, size_t *place, lapin_delivered *message,
                                        int timeout) {
    if (!lapin_begin(mine)) return false;
    mine->consumers = consumers, mine->count = count, mine->place = *place;
    bool has_come = lapin_await(mine, LAPIN_FOR_MESSAGE, timeout), is_done = has_come && mine->is_well;
    if (!has_come) lapin_says(mine, "TimedOut: nothing came in time");
    else *place = mine->place;
    *message = mine->message;
    lapin_finish(mine);
    return is_done;
}

/* The next message of a consumer within the time. */
static inline bool lapin_shared_next(lapin_caller *mine, uint64_t consumer, lapin_delivered *message, int timeout) {
    size_t place = 0;
    return lapin_shared_next_of(mine, &consumer, 1, &place, message, timeout);
}

/* What handles a message: whether to go on. It may use this caller. */
typedef bool (*lapin_handler)(lapin_caller *mine, const lapin_delivered *message, void *context);

/* Has each message of a consumer handled in this thread, outside the lock, until the handler says that it is enough: true; or until none came within
 * the time, or the consumer is at its end: false. */
static inline bool lapin_shared_run(lapin_caller *mine, uint64_t consumer, lapin_handler handler, void *context, int timeout) {
    lapin_delivered message;
    while (lapin_shared_next(mine, consumer, &message, timeout))
        if (!handler(mine, &message, context)) return true;
    return false;
}

static inline bool lapin_settle_by(lapin_caller *mine, uint32_t how, uint64_t acker, bool multiple, bool requeue) {
    if (!lapin_begin(mine)) return false;
    lapin_shared *s = mine->shared;
    lapin_connection *c = &s->core;
    uint32_t status = LAPIN_REFUSED;
    bool is_done = lapin_goes_on(mine);
    if (is_done && c->waiting) is_done = lapin_collect_up_to(c, SIZE_MAX) || lapin_own_error(mine); /* what was published before leaves before */
    if (is_done && how == LAPIN_ACK) status = lapin_ack(&c->session, acker, multiple);
    else if (is_done) status = how == LAPIN_NACK ? lapin_nack(&c->session, acker, multiple, requeue) : lapin_reject(&c->session, acker, requeue);
    if (is_done && status == LAPIN_GONE) is_done = lapin_says(mine, "the message was settled before, or its channel has ended");
    else if (is_done && status) is_done = lapin_refuses(c, 0, status), lapin_own_error(mine);
    if (is_done) s->is_dirty = true;
    if (is_done && !s->is_full) lapin_nudge(s, false);
    lapin_finish(mine);
    return is_done;
}

/* Settle a message by its acker (message.numbers.acker), from any thread: whether that is sent. */
static inline bool lapin_shared_ack(lapin_caller *mine, uint64_t acker, bool multiple) {
    return lapin_settle_by(mine, LAPIN_ACK, acker, multiple, false);
}
static inline bool lapin_shared_nack(lapin_caller *mine, uint64_t acker, bool multiple, bool requeue) {
    return lapin_settle_by(mine, LAPIN_NACK, acker, multiple, requeue);
}
static inline bool lapin_shared_reject(lapin_caller *mine, uint64_t acker, bool requeue) {
    return lapin_settle_by(mine, LAPIN_NONE, acker, false, requeue);
}

/* ---- calls of octets, and the end */

/* Makes a call, for which there is room: its ticket. What was made before leaves before. */
static inline bool lapin_make(lapin_caller *mine, uint16_t channel, lapin_octets head, const lapin_octets *table, uint64_t *ticket) {
    lapin_shared *s = mine->shared;
    lapin_connection *c = &s->core;
    lapin_octets method = {NULL, 0};
    if (!lapin_collect_up_to(c, SIZE_MAX) || !lapin_spell(c, head, table, &method)) return lapin_own_error(mine);
    s->is_dirty = true;
    uint32_t status = lapin_call(&c->session, channel, method.at, method.length, ticket);
    if (status) return lapin_refuses(c, channel, status), lapin_own_error(mine);
    if (s->first) lapin_rouse(s); /* a close decides what others wait for */
    return true;
}

/* Makes a call and waits for its answer, which this caller has then. */
static inline bool lapin_ask_under(lapin_caller *mine, uint16_t channel, lapin_octets head, const lapin_octets *table, uint64_t until) {
    uint64_t ticket = 0;
    if (!lapin_make(mine, channel, head, table, &ticket)) return false;
    mine->number = ticket, mine->channel = channel;
    if (lapin_await_until(mine, LAPIN_FOR_REPLY, until)) return mine->is_well;
    lapin_connection *c = &mine->shared->core;
    lapin_forget_call(&c->session, ticket);
    return lapin_is_unanswered(c, (unsigned char)head.at[1], (unsigned char)head.at[3]), lapin_own_error(mine);
}

/* Makes a call of these octets, and of a table behind them where there is one. */
static inline const lapin_fields *lapin_shared_asks(lapin_caller *mine, uint16_t channel, lapin_octets head, const lapin_octets *table) {
    if (!lapin_begin(mine)) return NULL;
    uint64_t until = lapin_until(mine->timeout);
    bool is_done = lapin_goes_on(mine) && lapin_find_room(mine, head.length + (table ? table->length : 0) + 16, false);
    is_done = is_done && lapin_goes_on(mine) && lapin_ask_under(mine, channel, head, table, until);
    lapin_finish(mine);
    return is_done ? &mine->fields : NULL;
}

/* Makes the call of a method's octets, as lapin_ask: what its reply says, with its octets in mine->answer. */
static inline const lapin_fields *lapin_shared_ask(lapin_caller *mine, uint16_t channel, const void *method, size_t length) {
    lapin_octets octets = {(const char *)method, length};
    if (length < 4) octets.at = NULL;
    return lapin_shared_asks(mine, channel, octets, NULL);
}

/* Closes the connection from any thread, within the caller's time and ten seconds at most: whether the broker answered the close. All that wait are
 * told, each call fails from then on, and a publish without an outcome is an error. Once more does nothing. */
static inline bool lapin_shared_close(lapin_caller *mine) {
    if (!lapin_begin(mine)) return false;
    lapin_shared *s = mine->shared;
    lapin_connection *c = &s->core;
    uint64_t until = lapin_until(mine->timeout < 0 || mine->timeout > LAPIN_CLOSING_TIME ? LAPIN_CLOSING_TIME : mine->timeout);
    if (!c->is_lost && !s->is_closing) {
        s->is_closing = true;
        lapin_ask_under(mine, 0, lapin_close_method(false), NULL, until);
        lapin_lose(c, c->is_lost ? c->lost : "it was closed, and the broker did not answer that");
        lapin_own_error(mine);
    } else if (!lapin_await_until(mine, LAPIN_FOR_END, until)) lapin_says(mine, "TimedOut: another thread closes the connection");
    else lapin_lose(c, c->lost), lapin_own_error(mine);
    bool is_well = s->is_well;
    lapin_finish(mine);
    return is_well;
}

/* This caller is no more. The last one closes the connection, and lets go of what it has. In a process that was forked it closes its descriptors, and
 * says nothing to the broker. */
static inline void lapin_shared_leave(lapin_caller *mine) {
    int before = errno;
    lapin_shared *s = mine->shared;
    if (!s) return;
    bool is_forked = s->core.generation != *s->core.forks, is_last = false;
    if (is_forked) {
        if (s->core.socket >= 0) close(s->core.socket);
        s->core.socket = -1;
        lapin_close_all(s);
    } else if (lapin_begin(mine)) is_last = !--s->callers, lapin_finish(mine);
    if (is_last) {
        lapin_shared_close(mine);
        pthread_join(s->thread, NULL);
        pthread_mutex_destroy(&s->lock);
        lapin_free_shared(s);
    }
    free(mine->answer), lapin_free_kept(mine->back);
    if (!is_forked) pthread_cond_destroy(&mine->woken);
    mine->answer = NULL, mine->answer_length = 0, mine->back = NULL, mine->shared = NULL;
    lapin_says(mine, "there is no connection");
    errno = before;
}

#include "shared_calls.h"

#endif
