/* A connection over lapin.h for a blocking caller: the opening, calls that wait, publishes with their outcomes, messages, and the end.
 *
 * A function that can fail answers false, NULL or LAPIN_ERROR, and lapin_error(c) says why, with the broker's last words; errno stays as it was.
 * Bytes that the session gave away are kept until the kernel took them, or the connection is lost and each call says so: a signal, a time limit
 * or a broker that doesn't read changes nothing of that. Times are milliseconds, and c->timeout limits the calls that are given none.
 *
 * One thread uses a connection; from another one each call is refused, until it calls lapin_move_here once the first has let go. In a process
 * that was forked the connection is lost, and its parent's goes on. No call is for a signal handler, and one that a jump left ends the
 * connection. What stands in c->session is the connection's; its calls of lapin.h that wait for nothing may be made all the same.
 * A connection that many threads use is shared.h's. POSIX; include it first where you compile by a strict standard (-std=c99).
 */
#ifndef LAPIN_CONNECTION_H
#define LAPIN_CONNECTION_H

#include "calls.h"
#include "opening.h"
#include "returns.h"

/* An outcome beside those of lapin.h: the broker answers for the publish, and no queue wanted it. lapin_came_back has the message. */
enum { LAPIN_RETURNED = 6 };

enum { LAPIN_CLOSING_TIME = 10000 };

/* ---- who uses it */

/* From here on this thread uses the connection. The one before must have let go of it, and said so in a way that orders both. */
static inline void lapin_move_here(lapin_connection *c) { c->thread = &errno; }

/* ---- publishes and their outcomes */

/* What the session's number of an outcome tells not all of: a message that came back goes to its own publish, and where it equals none, it is that
 * of a publish that was made by the session's own call; why there was an error is kept. The outcome, NONE where there is none yet. */
static inline uint32_t lapin_look_further(lapin_connection *c, lapin_publication *of, bool is_ours, uint32_t outcome) {
    lapin_publications *p = &c->publications;
    lapin_returned back;
    lapin_refusal why;
    memset(&why, 0, sizeof why), why.kind = LAPIN_WHY_UNKNOWN;
    if (outcome == LAPIN_NONE) {
        outcome = lapin_whole_outcome(c, of->confirm, &back, &why);
        if (back.text.at) {
            if (p->due) p->due--;
            if (!lapin_give(p, of->channel, &back) && !is_ours) {
                if ((c->back = lapin_keep(p, of->channel, &back))) lapin_keep_text(c->back, &back);
                else lapin_lose(c, "no memory for a message that came back"), why.kind = LAPIN_WHY_NO_MEMORY, outcome = LAPIN_ERROR;
            }
        }
    } else lapin_why(&c->session, &why);
    if (outcome == LAPIN_ERROR && (of->error = (lapin_refusal *)malloc(sizeof why))) *of->error = why;
    return outcome;
}

/* What the session's number of its outcome now tells of a publish is kept. */
static inline void lapin_look_at(lapin_connection *c, lapin_publication *of, bool is_ours, uint32_t outcome) {
    bool is_all = outcome == LAPIN_NONE ? is_ours && !c->publications.due : outcome != LAPIN_ERROR;
    of->outcome = (uint8_t)(is_all ? outcome : lapin_look_further(c, of, is_ours, outcome));
}

/* Looks whether there is an outcome of a publish now. */
static inline void lapin_look(lapin_connection *c, lapin_publication *of, bool is_ours) {
    lapin_look_at(c, of, is_ours, lapin_outcome(&c->session, of->confirm));
}

/* Looks for the outcomes of the oldest publishes, up to a place, and no more of them than this. Those before a settled one are settled, so that
 * nothing of it is on its way. */
static inline void lapin_look_at_oldest(lapin_connection *c, size_t place, size_t most) {
    lapin_publications *p = &c->publications;
    while (most-- && p->settled < place) {
        lapin_publication *of = &p->at[p->settled];
        if (!of->is_told && !of->outcome) lapin_look(c, of, true);
        if (!of->is_told && !of->outcome) return;
        p->settled++;
        if (!of->is_told && of->kept && !of->kept->message.text.at) lapin_let_go(p, of->kept), of->kept = NULL;
        if (!of->is_told && of->is_aside) lapin_let_go(p, lapin_tell(p, of));
    }
}

/* Looks at each publish before a place once, after bytes came: one of them may have what came back of the one that stands there. */
static inline void lapin_look_before(lapin_connection *c, size_t place) {
    lapin_publications *p = &c->publications;
    lapin_look_at_oldest(c, place, SIZE_MAX);
    for (p->swept = p->swept > p->settled ? p->swept : p->settled; p->due && p->swept < place; p->swept++)
        if (!p->at[p->swept].is_told && !p->at[p->swept].outcome) lapin_look(c, &p->at[p->swept], true);
}

/* The outcome of a publish now, as lapin_settled says. Most that are asked for are the oldest of which nobody was told, and can't come back. */
static inline uint32_t lapin_tells(lapin_connection *c, uint64_t confirm) {
    lapin_publications *p = &c->publications;
    lapin_publication *of = p->from < p->to ? &p->at[p->from] : NULL, stranger;
    if (of && of->confirm == confirm && !of->kept && !of->is_aside && !c->returned.text.at) {
        uint32_t outcome = of->outcome ? of->outcome : lapin_outcome(&c->session, confirm);
        if (outcome == LAPIN_ACK) return lapin_pass(p), outcome;
        if (!of->outcome) lapin_look_at(c, of, true, outcome);
        if (!of->outcome) return LAPIN_NONE;
    }
    of = lapin_find(p, confirm);
    bool is_ours = of != NULL;
    if (!is_ours) memset(&stranger, 0, sizeof stranger), stranger.confirm = confirm, of = &stranger;
    if (c->returned.text.at) {
        lapin_let_go(p, c->back), c->back = NULL;
        memset(&c->returned, 0, sizeof c->returned);
    }
    if (!of->outcome) lapin_look(c, of, is_ours);
    if (p->due && of->kept && !of->kept->message.text.at && (of->outcome == LAPIN_ACK || of->outcome == LAPIN_NACK))
        lapin_look_before(c, (size_t)(of - p->at));
    uint32_t outcome = of->outcome;
    if (!outcome) return outcome;
    if (outcome == LAPIN_ERROR && of->error) lapin_explain(c, of->channel, of->error);
    else if (outcome == LAPIN_ERROR) lapin_fails(c, "no memory for its error");
    if (is_ours) c->back = lapin_tell(p, of);
    else free(stranger.error);
    if (c->back) c->returned = c->back->message;
    if (outcome == LAPIN_ACK && c->returned.text.at) outcome = LAPIN_RETURNED;
    return outcome;
}

/* Queues a publish, for which there is room: whether that was done, and the number of its confirm. */
static inline bool lapin_queue_up(lapin_connection *c, uint16_t channel, bool mandatory, const lapin_returned *message, uint64_t *confirm) {
    lapin_publications *p = &c->publications;
    lapin_kept *kept = NULL;
    if (p->aside || p->kept) lapin_look_at_oldest(c, p->to, p->aside ? 2 : 1);
    if (!lapin_more_publications(p)) return lapin_fails(c, "no memory");
    if (mandatory && !(kept = lapin_keep(p, channel, message))) return lapin_fails(c, "no memory");
    uint32_t status = lapin_publish(&c->session, channel, message->exchange.at, message->exchange.length, message->routing_key.at,
                                    message->routing_key.length, mandatory, false, message->body.at, message->body.length, message->properties.at,
                                    message->properties.length, confirm);
    if (status) return lapin_let_go(p, kept), lapin_refuses(c, channel, status);
    lapin_add(p, *confirm, channel, kept), c->waiting += message->body.length + message->properties.length + 64;
    return true;
}

/* What a caller publishes. Its names end by a zero; the properties are a list, as lapin_put_properties writes it, and NULL for none. */
static inline lapin_returned lapin_outgoing(const char *exchange, const char *routing_key, const void *body, size_t length,
                                            const lapin_octets *properties) {
    static const lapin_octets NONE = {"\0", 2};
    lapin_returned message = {0, {"", 0}, {exchange, *exchange ? strlen(exchange) : 0}, {routing_key, strlen(routing_key)}, {NULL, 0},
                              {(const char *)body, length}};
    message.properties = properties ? *properties : NONE;
    return message;
}

/* Queues a publish, which leaves with the next call that waits: true, and the number of its confirm. Once some 64 KiB of publishes wait they
 * leave first, within the timeout. Where it answers false nothing was published. The properties are a list, as lapin_put_properties writes it; NULL
 * for none. */
static inline bool lapin_publish_bytes(lapin_connection *c, uint16_t channel, const char *exchange, const char *routing_key, bool mandatory,
                                       const void *body, size_t length, const lapin_octets *properties, uint64_t *confirm) {
    int before = errno;
    lapin_returned message = lapin_outgoing(exchange, routing_key, body, length, properties);
    if (!lapin_enter(c)) return false;
    bool is_done = !c->is_lost || lapin_lose(c, c->lost);
    if (is_done && !message.properties.at) is_done = lapin_fails(c, "publish: its properties were not written whole");
    if (is_done && c->waiting >= LAPIN_ENOUGH) is_done = lapin_is_alive(c) && lapin_flush_until(c, lapin_until(c->timeout));
    is_done = is_done && lapin_queue_up(c, channel, mandatory, &message, confirm);
    c->is_inside = false, errno = before;
    return is_done;
}

/* The outcome of a publish, given once, or LAPIN_NONE where there is none yet: ACK, RETURNED, NACK, NOT_REQUESTED, or ERROR, of which nothing is
 * known but what lapin_error tells. */
static inline uint32_t lapin_settled(lapin_connection *c, uint64_t confirm) {
    int before = errno;
    if (!lapin_enter(c)) return LAPIN_ERROR;
    uint32_t outcome = lapin_tells(c, confirm);
    c->is_inside = false, errno = before;
    return outcome;
}

/* Waits for the outcome of a publish. LAPIN_NONE: it didn't come within the timeout, as lapin_error says, and may be asked for again. */
static inline uint32_t lapin_wait(lapin_connection *c, uint64_t confirm) {
    int before = errno;
    uint64_t until = lapin_until(c->timeout);
    if (!lapin_enter(c)) return LAPIN_ERROR;
    uint32_t outcome;
    bool is_late = false, is_good = true;
    while (!(outcome = lapin_tells(c, confirm)) && is_good && !is_late) {
        if (!lapin_is_alive(c)) outcome = LAPIN_ERROR;
        if (outcome) break;
        is_late = lapin_now() >= until;
        is_good = lapin_turn_until(c, until) || c->is_lost;
    }
    if (!outcome && is_late) lapin_fails(c, "TimedOut: no outcome in time");
    c->is_inside = false, errno = before;
    return outcome;
}

/* The message that came back with the outcome that was told last, NULL where none did. It is good until the next outcome is asked for. */
static inline const lapin_returned *lapin_came_back(const lapin_connection *c) { return c->returned.text.at ? &c->returned : NULL; }

static inline void lapin_put_aside(lapin_connection *c, uint64_t confirm) {
    lapin_publication *of = lapin_find(&c->publications, confirm);
    if (!of) lapin_forget(&c->session, confirm);
    else if (of->outcome) lapin_let_go(&c->publications, lapin_tell(&c->publications, of));
    else if (!of->is_aside) of->is_aside = true, c->publications.aside++;
}

/* Nobody will ask for the outcome of this publish. */
static inline void lapin_set_aside(lapin_connection *c, uint64_t confirm) {
    int before = errno;
    if (!lapin_enter(c)) return;
    lapin_put_aside(c, confirm);
    c->is_inside = false, errno = before;
}

/* Publishes a text that has to reach a queue, and waits for its outcome. */
static inline uint32_t lapin_publish_text(lapin_connection *c, uint16_t channel, const char *exchange, const char *key, const char *body,
                                          const lapin_octets *properties) {
    uint64_t confirm;
    if (!lapin_publish_bytes(c, channel, exchange, key, true, body, strlen(body), properties, &confirm)) return LAPIN_ERROR;
    return lapin_wait(c, confirm);
}

/* ---- messages of consumers, and the end */

/* What a consumer was handed, by the status of its delivery. Its octets lie in the answer. */
static inline bool lapin_hand_over(lapin_connection *c, uint64_t consumer, uint32_t status, lapin_delivered *message) {
    size_t place = consumer % LAPIN_REMEMBERED;
    uint16_t channel = c->consumers[place].consumer == consumer ? c->consumers[place].channel : 0;
    if (status == LAPIN_GONE) return lapin_fails(c, "the consumer is at its end");
    if (status == LAPIN_REFUSED) return lapin_refuses(c, channel, status);
    if (status || !lapin_told(c)) return lapin_lose(c, "no memory for a message");
    lapin_part(c->answer, message);
    return true;
}

/* What a consumer was handed, as lapin_next says. */
static inline bool lapin_takes(lapin_connection *c, uint64_t consumer, lapin_delivered *message, uint64_t until) {
    uint32_t status;
    bool is_late = false;
    while ((status = lapin_delivery(&c->session, consumer, &message->numbers)) == LAPIN_PENDING) {
        if (!lapin_is_alive(c)) return false;
        if (is_late) return lapin_fails(c, "TimedOut: nothing came in time");
        is_late = lapin_now() >= until;
        if (!lapin_turn_until(c, until) && !c->is_lost) return false;
    }
    return lapin_hand_over(c, consumer, status, message);
}

/* The next message of a consumer within the time; -1 for ever. */
static inline bool lapin_next(lapin_connection *c, uint64_t consumer, lapin_delivered *message, int timeout) {
    int before = errno;
    if (!lapin_enter(c)) return false;
    bool is_done = lapin_takes(c, consumer, message, lapin_until(timeout));
    c->is_inside = false, errno = before;
    return is_done;
}

/* Which of these consumers has something now, by its place: those behind this one are looked at first, and it last. */
static inline bool lapin_finds(lapin_connection *c, const uint64_t *consumers, size_t count, size_t *place) {
    size_t behind = *place < count ? *place + 1 : 0;
    return lapin_ready_consumer(&c->session, consumers, count, behind, place) == LAPIN_DONE ||
           lapin_ready_consumer(&c->session, consumers, count, 0, place) == LAPIN_DONE;
}

/* The next message of any of these consumers within the time, -1 for ever, and whose it is by its place. *place is where the one before was, or
 * count, so that none waits for ever behind another one. Where a consumer's end or error is told, *place is its place too, and it is to be left out
 * from then on; where nothing came in time *place is as it was. It costs the same however many wait. */
static inline bool lapin_next_of(lapin_connection *c, const uint64_t *consumers, size_t count, size_t *place, lapin_delivered *message, int timeout) {
    int before = errno;
    uint64_t until = lapin_until(timeout);
    if (!lapin_enter(c)) return false;
    bool is_late = false, is_good = true, is_done = false;
    while (!(is_done = lapin_finds(c, consumers, count, place)) && is_good && !is_late) {
        if (!lapin_is_alive(c)) break;
        is_late = lapin_now() >= until;
        is_good = lapin_turn_until(c, until) || c->is_lost;
        if (is_late && is_good) lapin_fails(c, "TimedOut: nothing came in time");
    }
    is_done = is_done && lapin_takes(c, consumers[*place], message, until);
    c->is_inside = false, errno = before;
    return is_done;
}

/* Closes the connection, and lets go of what it has: whether the broker answered the close, so that all that was published and acknowledged
 * before has reached it. That is waited for within the timeout, and ten seconds at most. Once more does nothing. */
static inline bool lapin_disconnect(lapin_connection *c) {
    int before = errno;
    if (c->thread && c->thread != &errno) return false;
    bool is_well = false;
    if (c->thread && !c->is_lost && !c->is_inside && c->generation == *c->forks) {
        uint64_t until = lapin_until(c->timeout < 0 || c->timeout > LAPIN_CLOSING_TIME ? LAPIN_CLOSING_TIME : c->timeout);
        c->is_inside = true;
        lapin_octets close = {LAPIN_CONNECTION_CLOSE, 14};
        is_well = lapin_answered(c, 0, close, until);
    }
    if (c->thread && c->socket >= 0) close(c->socket);
    if (!c->is_lost) strcpy(c->lost, "it was closed");
    c->is_lost = true, c->is_inside = false, c->socket = -1;
    lapin_close(&c->session);
    lapin_let_go(&c->publications, c->back), lapin_forget_all(&c->publications);
    free(c->room), free(c->answer), free(c->method), free(c->leaving), free(c->server_properties);
    c->room = c->answer = c->method = c->leaving = c->server_properties = NULL, c->back = NULL;
    c->room_length = c->answer_length = c->method_length = c->leaving_length = c->leaving_from = c->leaving_to = c->server_properties_length = 0;
    memset(&c->returned, 0, sizeof c->returned);
    errno = before;
    return is_well;
}

#endif
