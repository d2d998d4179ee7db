/* What threads share of a connection: one lock around it, those that wait for something, and the thread that has its socket. For shared.h, which has
 * what a user calls.
 *
 * Each step is one hold of the lock, and every wait frees it. Behind each hold nobody waits for what is there: who made it be there gives it to those
 * that wait, the first first. So a caller that is woken has what it waited for, and no two are given the same. Nothing of the user's is called.
 */
#ifndef LAPIN_SHARING_H
#define LAPIN_SHARING_H

#include "connection.h"

#include <fcntl.h>
#include <signal.h>

/* What the thread does. It dozes for a millisecond where something went on before, so that what is queued meanwhile needs no call. A caller that
 * waits alone waits for the socket itself, so that it need not be woken; meanwhile the thread is aside, and looks each few milliseconds whether that
 * goes on. Where several wait it has the socket, for so many milliseconds at least. */
enum { LAPIN_AWAKE, LAPIN_DOZES, LAPIN_SLEEPS };
enum { LAPIN_DOZE = 1, LAPIN_ASIDE = 3, LAPIN_CROWDED = 100, LAPIN_SOME = 1 << 15 };

/* What a caller waits for. */
enum { LAPIN_FOR_REPLY, LAPIN_FOR_OUTCOME, LAPIN_FOR_MESSAGE, LAPIN_FOR_ROOM, LAPIN_FOR_LEAVING, LAPIN_FOR_BLOCKED, LAPIN_FOR_END };

/* How much may wait before a publish or a call waits for room: octets that have not left, about; and publishes from the oldest one on that has no
 * outcome, 0 for no limit. Begins as LAPIN_BOUNDS. */
typedef struct {
    size_t octets, confirms;
} lapin_bounds;

#define LAPIN_BOUNDS {1 << 20, 0}

struct lapin_caller;

/* One connection as all its callers share it. The last one that leaves frees it. */
typedef struct lapin_shared {
    pthread_mutex_t lock;
    lapin_connection core;
    lapin_bounds bounds;
    pthread_t thread;
    int socket;   /* of the thread alone: its descriptor of the same socket */
    int calls[2]; /* a pair: the thread polls the first and is called by the second; a caller that waits for the socket the other way round */
    unsigned rest;
    struct lapin_caller *leader; /* who waits for the socket in the thread's place; NULL where nobody does */
    uint64_t leads, crowded;     /* how often somebody did, and until when nobody is to */
    bool is_aside;               /* the thread does not wait for the socket */
    bool is_full;    /* the kernel takes nothing just now */
    bool is_dirty;   /* something was queued that did not leave */
    bool is_closing; /* by this side */
    bool is_well;    /* the broker answered the close */
    bool is_over;    /* those that waited were told that the connection is lost */
    size_t callers, rooms, leavers, granted_octets, granted; /* who waits for room, or for octets to leave; what was granted and isn't used yet */
    struct lapin_caller *first, *last;              /* those that wait, in their order */
    unsigned char taken[1 << 13];                   /* the channels that somebody has, a bit each */
} lapin_shared;

/* What one thread at a time has of a shared connection: its time limit, its last error, and what it was answered last. Begins by
 * lapin_shared_connect or lapin_shared_join, ends by lapin_shared_leave; nobody copies it. The timeout is the caller's to set: -1, as it begins,
 * is for ever. */
typedef struct lapin_caller {
    int timeout;
    lapin_shared *shared; /* NULL where there is none */
    lapin_fields fields;  /* of its last reply; its octets are the answer */
    char *answer;
    size_t answer_length;
    lapin_kept *back;
    struct lapin_caller *next, *previous;
    pthread_cond_t woken;
    unsigned awaits;
    bool is_inside, is_done, is_well;
    int cancel, before;
    uint16_t channel;
    uint64_t number; /* of what it waits for */
    uint32_t outcome;
    const uint64_t *consumers;
    size_t count, place, size;
    lapin_delivered message;
    char error[1100];
} lapin_caller;

/* ---- errors: each caller has its own */

static inline bool lapin_says(lapin_caller *mine, const char *words) {
    snprintf(mine->error, sizeof mine->error, "%s", words);
    return false;
}

/* The error that the connection was just told is this caller's. */
static inline bool lapin_own_error(lapin_caller *mine) {
    const lapin_shared *s = mine->shared;
    bool is_ending = s->is_closing && !s->core.is_lost;
    snprintf(mine->error, sizeof mine->error, "%.1000s%s", s->core.error, is_ending ? "; this side closes the connection" : "");
    return false;
}

/* ---- what a caller is given */

static inline size_t lapin_octets_waiting(const lapin_shared *s) {
    return s->core.waiting + (s->core.leaving_to - s->core.leaving_from) + s->granted_octets;
}

static inline size_t lapin_publishes_open(const lapin_shared *s) { return s->core.publications.to - s->core.publications.settled + s->granted; }

/* Whether there is room for so many octets more, and for a publish; what is longer than the bound has it where nothing waits. */
static inline bool lapin_has_room(lapin_shared *s, size_t size, bool is_publish) {
    size_t waiting = lapin_octets_waiting(s), most = is_publish ? s->bounds.confirms : 0;
    if (most && lapin_publishes_open(s) >= most) lapin_look_at_oldest(&s->core, s->core.publications.to, SIZE_MAX);
    return (!waiting || (size <= s->bounds.octets && waiting <= s->bounds.octets - size)) && (!most || lapin_publishes_open(s) < most);
}

/* What the connection was answered last is this caller's, in exchange for its room. */
static inline void lapin_own_answer(lapin_caller *mine) {
    lapin_connection *c = &mine->shared->core;
    char *room = mine->answer;
    size_t length = mine->answer_length;
    mine->answer = c->answer, mine->answer_length = c->answer_length;
    c->answer = room, c->answer_length = length;
}

static inline bool lapin_try_reply(lapin_caller *mine) {
    lapin_connection *c = &mine->shared->core;
    uint32_t status = lapin_reply(&c->session, mine->number, &c->fields);
    if (status == LAPIN_PENDING && !c->is_lost) return false;
    mine->is_well = status == LAPIN_PENDING ? lapin_lose(c, c->lost) : lapin_take_answer(c, mine->channel, status);
    if (!mine->is_well) return lapin_own_error(mine), true;
    mine->fields = c->fields;
    lapin_own_answer(mine);
    return true;
}

static inline bool lapin_try_outcome(lapin_caller *mine) {
    lapin_connection *c = &mine->shared->core;
    uint32_t outcome = lapin_tells(c, mine->number);
    if (!outcome && c->is_lost) lapin_lose(c, c->lost), outcome = LAPIN_ERROR;
    mine->outcome = outcome, mine->is_well = outcome != LAPIN_ERROR;
    if (!outcome) return false;
    if (mine->back) lapin_free_kept(mine->back), mine->back = NULL;
    if (c->back) lapin_part_with(&c->publications, c->back), mine->back = c->back, c->back = NULL;
    memset(&c->returned, 0, sizeof c->returned);
    if (!mine->is_well) lapin_own_error(mine);
    return true;
}

/* A consumer is at its end: the connection's end is told as why, where that is why. */
static inline void lapin_tell_end(lapin_connection *c) {
    char words[400];
    lapin_refusal lost;
    memset(&lost, 0, sizeof lost), lost.kind = LAPIN_WHY_CONNECTION_LOST;
    if (c->is_lost) lapin_lose(c, c->lost);
    else lapin_fails(c, "%s%s", c->error, lapin_words(c, 0, &lost, words, sizeof words));
}

static inline bool lapin_try_message(lapin_caller *mine) {
    lapin_connection *c = &mine->shared->core;
    if (!lapin_finds(c, mine->consumers, mine->count, &mine->place)) {
        if (c->is_lost) lapin_lose(c, c->lost), mine->is_well = false, lapin_own_error(mine);
        return c->is_lost;
    }
    uint64_t consumer = mine->consumers[mine->place];
    uint32_t status = lapin_delivery(&c->session, consumer, &mine->message.numbers);
    mine->is_well = lapin_hand_over(c, consumer, status, &mine->message);
    if (!mine->is_well && status == LAPIN_GONE) lapin_tell_end(c);
    if (!mine->is_well) return lapin_own_error(mine), true;
    lapin_own_answer(mine);
    return true;
}

static inline bool lapin_try_room(lapin_caller *mine) {
    lapin_shared *s = mine->shared;
    mine->is_well = !s->core.is_lost;
    if (!mine->is_well) return lapin_lose(&s->core, s->core.lost), lapin_own_error(mine), true;
    if (!lapin_has_room(s, mine->size, mine->number != 0)) return false;
    s->granted_octets += mine->size, s->granted += mine->number != 0;
    return true;
}

/* Whether there is what this caller waits for. Then it has it, or the error that took its place. */
static inline bool lapin_try(lapin_caller *mine) {
    lapin_shared *s = mine->shared;
    lapin_connection *c = &s->core;
    switch (mine->awaits) {
    case LAPIN_FOR_REPLY: return lapin_try_reply(mine);
    case LAPIN_FOR_OUTCOME: return lapin_try_outcome(mine);
    case LAPIN_FOR_MESSAGE: return lapin_try_message(mine);
    case LAPIN_FOR_ROOM: return lapin_try_room(mine);
    default: break;
    }
    mine->is_well = mine->awaits == LAPIN_FOR_END || !c->is_lost;
    if (!mine->is_well) lapin_lose(c, c->lost), lapin_own_error(mine);
    if (mine->awaits == LAPIN_FOR_LEAVING) return c->is_lost || (!s->is_dirty && c->leaving_from == c->leaving_to);
    if (mine->awaits == LAPIN_FOR_BLOCKED) return c->is_lost || lapin_is_blocked(&c->session) == (mine->number != 0);
    return c->is_lost;
}

static inline void lapin_line_up(lapin_caller *mine) {
    lapin_shared *s = mine->shared;
    mine->next = NULL, mine->previous = s->last;
    *(s->last ? &s->last->next : &s->first) = mine, s->last = mine;
    s->rooms += mine->awaits == LAPIN_FOR_ROOM, s->leavers += mine->awaits == LAPIN_FOR_LEAVING;
}

static inline void lapin_step_out(lapin_caller *mine) {
    lapin_shared *s = mine->shared;
    *(mine->next ? &mine->next->previous : &s->last) = mine->previous;
    *(mine->previous ? &mine->previous->next : &s->first) = mine->next;
    s->rooms -= mine->awaits == LAPIN_FOR_ROOM, s->leavers -= mine->awaits == LAPIN_FOR_LEAVING;
}

static inline void lapin_wake(lapin_caller *each) {
    const lapin_shared *s = each->shared;
    each->is_done = true;
    if (s->leader == each) (void)!send(s->calls[0], "", 1, MSG_NOSIGNAL | MSG_DONTWAIT);
    else pthread_cond_signal(&each->woken);
}

/* Gives those that wait what is there for them, the first first. Publishes get room in this order too, so that no long one waits for ever. */
static inline void lapin_rouse(lapin_shared *s) {
    bool has_room = true;
    for (lapin_caller *each = s->first, *next; each; each = next) {
        bool is_publish = each->awaits == LAPIN_FOR_ROOM && each->number;
        next = each->next;
        if (is_publish && !has_room) continue;
        if (lapin_try(each)) lapin_step_out(each), lapin_wake(each);
        else if (is_publish) has_room = false;
    }
}

/* ---- octets out */

/* The thread looks. It needs no call where it is awake, or dozes and will look by itself. */
static inline void lapin_nudge(lapin_shared *s, bool is_urgent) {
    if (s->rest == LAPIN_AWAKE || (s->rest == LAPIN_DOZES && !is_urgent)) return;
    s->rest = LAPIN_AWAKE;
    if (send(s->calls[1], "", 1, MSG_NOSIGNAL | MSG_DONTWAIT) < 0) s->rest = LAPIN_DOZES; /* (so many calls are there) */
}

/* Sends what waits, as far as the kernel takes it at once. */
static inline void lapin_send_off(lapin_shared *s) {
    lapin_connection *c = &s->core;
    if (c->is_lost || s->is_full) return;
    bool is_sent = lapin_push(c);
    s->is_full = c->leaving_from < c->leaving_to, s->is_dirty = !is_sent;
    if (s->rooms || s->leavers) lapin_rouse(s);
    if (s->is_full || s->is_dirty) lapin_nudge(s, true);
}

/* ---- a step of a caller's */

/* A caller begins a step: it has the lock, and is not to be cancelled within. */
static inline bool lapin_begin(lapin_caller *mine) {
    lapin_shared *s = mine->shared;
    int before = errno, cancel = PTHREAD_CANCEL_ENABLE;
    if (!s) return lapin_says(mine, "there is no connection");
    if (s->core.generation != *s->core.forks) return lapin_says(mine, "ConnectionLost: this process was forked from the one that opened it");
    pthread_setcancelstate(PTHREAD_CANCEL_DISABLE, &cancel);
    int status = pthread_mutex_lock(&s->lock);
    bool is_free = !status && !mine->is_inside;
    if (!is_free) {
        if (!status) pthread_mutex_unlock(&s->lock);
        else lapin_says(mine, "ConnectionLost: this thread is within a call, or a jump left it");
        pthread_setcancelstate(cancel, NULL);
        errno = before;
        return false;
    }
    mine->is_inside = true, mine->cancel = cancel, mine->before = before;
    return true;
}

/* The connection was lost by now: all that wait are told, and the thread ends. */
static inline void lapin_tell_all(lapin_shared *s) {
    s->is_over = true;
    lapin_rouse(s);
    lapin_nudge(s, true);
}

static inline void lapin_finish(lapin_caller *mine) {
    lapin_shared *s = mine->shared;
    int before = mine->before, cancel = mine->cancel;
    if (s->core.is_lost && !s->is_over) lapin_tell_all(s);
    mine->is_inside = false;
    pthread_mutex_unlock(&s->lock);
    pthread_setcancelstate(cancel, NULL);
    errno = before;
}

/* Reads what is there, once. Where that answers this side's close, the connection has ended by it. */
static inline void lapin_hear_out(lapin_shared *s) {
    lapin_connection *c = &s->core;
    lapin_states states;
    if (c->is_lost || !lapin_hear(c) || !s->is_closing) return;
    if (lapin_state(&c->session, 0, &states) || states.connection != LAPIN_CONNECTION_CLOSED) return;
    s->is_well = true;
    lapin_lose(c, "it was closed");
}

/* Waits for the socket in the thread's place, once, until then: whether that could be waited for. */
static inline bool lapin_lead(lapin_caller *mine, uint64_t until) {
    lapin_shared *s = mine->shared;
    char calls[64];
    struct pollfd ready[2] = {{s->socket, (short)(s->is_full ? POLLIN | POLLOUT : POLLIN), 0}, {s->calls[1], POLLIN, 0}};
    s->leader = mine, s->leads++;
    pthread_mutex_unlock(&s->lock);
    int found = poll(ready, 2, until == UINT64_MAX ? 60000 : lapin_left(lapin_now(), until)), error = errno;
    pthread_mutex_lock(&s->lock);
    s->leader = NULL;
    if (found < 0) return error == EINTR;
    if (ready[1].revents) (void)!recv(s->calls[1], calls, sizeof calls, MSG_DONTWAIT);
    if (ready[0].revents & POLLOUT) s->is_full = false;
    if (ready[0].revents & ~POLLOUT) lapin_hear_out(s);
    if (ready[0].revents) lapin_send_off(s), lapin_rouse(s);
    if (s->core.is_lost && !s->is_over) lapin_tell_all(s);
    return true;
}

/* Waits until then, or until this caller has what it waits for: whether it has. The lock is free meanwhile. */
static inline bool lapin_wait_in_line(lapin_caller *mine, uint64_t until) {
    lapin_shared *s = mine->shared;
    lapin_line_up(mine);
    if (s->is_dirty) lapin_send_off(s); /* who waits sends what others wait for, too */
    if (s->core.is_lost && !s->is_over) lapin_tell_all(s);
    bool is_alone = s->first == mine && s->last == mine && !s->leader && (!s->crowded || lapin_now() >= s->crowded), has_led = is_alone;
    if (!is_alone && s->is_aside && !s->leader) lapin_nudge(s, true);
    while (is_alone && !mine->is_done && (until == UINT64_MAX || lapin_now() < until)) is_alone = lapin_lead(mine, until);
    if (has_led && s->first && s->first != s->last) s->crowded = lapin_now() + LAPIN_CROWDED;
    if (has_led && s->first) lapin_nudge(s, true); /* for those that wait on */
    while (!mine->is_done && (until == UINT64_MAX || lapin_now() < until)) {
        struct timespec limit;
        memset(&limit, 0, sizeof limit);
        limit.tv_sec = (time_t)(until / 1000), limit.tv_nsec = (long)(until % 1000) * 1000000;
        if (until == UINT64_MAX) pthread_cond_wait(&mine->woken, &s->lock);
        else pthread_cond_timedwait(&mine->woken, &s->lock, &limit);
    }
    if (mine->is_done) return true;
    lapin_step_out(mine);
    if (mine->awaits == LAPIN_FOR_ROOM && s->first) lapin_rouse(s); /* others waited behind it */
    return false;
}

/* Has this caller what is there now, of this kind. A publish gets room behind those that waited for it before. */
static inline bool lapin_look_for(lapin_caller *mine, unsigned what) {
    mine->awaits = what, mine->is_done = false;
    return !(what == LAPIN_FOR_ROOM && mine->number && mine->shared->rooms) && lapin_try(mine);
}

static inline bool lapin_await_until(lapin_caller *mine, unsigned what, uint64_t until) {
    return lapin_look_for(mine, what) || lapin_wait_in_line(mine, until);
}

/* Waits for what this caller names, within a time: whether it has it, or the error that took its place. */
static inline bool lapin_await(lapin_caller *mine, unsigned what, int timeout) {
    return lapin_look_for(mine, what) || lapin_wait_in_line(mine, lapin_until(timeout));
}

/* ---- the thread that has the socket */

/* Sends what may leave and what is due: for how many milliseconds nothing is; -1 where the connection is lost. */
static inline int lapin_look_around(lapin_shared *s, bool was_active) {
    lapin_connection *c = &s->core;
    struct pollfd ready = {s->socket, POLLIN, 0};
    uint64_t wait = 0;
    uint32_t due;
    bool is_active = was_active || (s->is_dirty && !s->is_full);
    s->rest = LAPIN_AWAKE;
    for (;;) {
        if (is_active || c->leaving_from < c->leaving_to) lapin_send_off(s);
        if (c->is_lost) break;
        uint64_t now = lapin_now();
        if (lapin_beat(&c->clock, now, &wait) == LAPIN_SILENT && poll(&ready, 1, 0) > 0) return 0; /* this side stood still: that is heard first */
        if ((due = lapin_pulse(c, now, &wait)) != LAPIN_SEND) break;
    }
    if (was_active || c->is_lost) lapin_rouse(s);
    s->is_over = c->is_lost;
    if (c->is_lost) return -1;
    if (due == LAPIN_NEVER || wait > 60000) wait = 60000;
    s->rest = is_active ? LAPIN_DOZES : LAPIN_SLEEPS;
    return is_active && wait > LAPIN_DOZE ? LAPIN_DOZE : (int)wait;
}

static inline void *lapin_serve(void *given) {
    lapin_shared *s = (lapin_shared *)given;
    lapin_connection *c = &s->core;
    bool is_active = true;
    char calls[64];
    int wait;
    uint64_t leads = 0;
    pthread_mutex_lock(&s->lock);
    while ((wait = lapin_look_around(s, is_active)) >= 0) {
        s->is_aside = s->leader || (s->leads != leads && !s->first), leads = s->leads;
        if (s->is_aside) s->rest = LAPIN_DOZES; /* who leads sends before it waits */
        if (s->is_aside && wait > LAPIN_ASIDE) wait = LAPIN_ASIDE;
        int events = (s->is_aside ? 0 : POLLIN) | (s->is_full ? POLLOUT : 0);
        struct pollfd ready[2] = {{events ? s->socket : -1, (short)events, 0}, {s->calls[0], POLLIN, 0}};
        pthread_mutex_unlock(&s->lock);
        int found = poll(ready, 2, wait), error = errno;
        pthread_mutex_lock(&s->lock);
        s->rest = LAPIN_AWAKE, s->is_full = s->is_full && !(ready[0].revents & POLLOUT);
        if (found < 0 && error != EINTR) lapin_lose(c, strerror(error));
        if (found > 0 && ready[1].revents) (void)!recv(s->calls[0], calls, sizeof calls, MSG_DONTWAIT);
        is_active = found > 0 && (ready[0].revents & ~POLLOUT) != 0;
        if (is_active) lapin_hear_out(s);
    }
    shutdown(s->socket, SHUT_RDWR); /* it is closed once no caller is left that may wait for it */
    pthread_mutex_unlock(&s->lock);
    return NULL;
}

#endif
