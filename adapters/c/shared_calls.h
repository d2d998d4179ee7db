/* The calls of a shared connection that wait for an answer, each once, from any thread: as calls.h has them of a connection of one thread.
 *
 * A call answers false where it failed, and lapin_shared_error says why. What it tells is good until this caller's next call that has an answer.
 */
#ifndef LAPIN_SHARED_CALLS_H
#define LAPIN_SHARED_CALLS_H

#include "shared.h"

/* Has this method done. */
static inline bool lapin_shared_does(lapin_caller *mine, uint16_t channel, lapin_octets method) {
    return lapin_shared_asks(mine, channel, method, NULL) != NULL;
}

/* ---- channels: by a number of the caller's, or by one that is given and that nobody else has until it is closed here */

static inline bool lapin_is_taken(const lapin_shared *s, unsigned channel) { return s->taken[channel / 8] >> channel % 8 & 1; }

static inline void lapin_mark_taken(lapin_shared *s, unsigned channel, bool is_taken) {
    unsigned bit = 1u << channel % 8, others = s->taken[channel / 8] & ~bit;
    s->taken[channel / 8] = (unsigned char)(others | (is_taken ? bit : 0));
}

/* Says under the lock whose a channel is. */
static inline bool lapin_shared_marks(lapin_caller *mine, uint16_t channel, bool is_taken) {
    if (!lapin_begin(mine)) return false;
    bool before = lapin_is_taken(mine->shared, channel);
    lapin_mark_taken(mine->shared, channel, is_taken);
    lapin_finish(mine);
    return before;
}

/* Opens a channel by its number. */
static inline bool lapin_shared_channel_open(lapin_caller *mine, uint16_t channel) {
    unsigned char room[LAPIN_HEAD];
    bool before = lapin_shared_marks(mine, channel, true);
    bool is_open = lapin_shared_does(mine, channel, lapin_channel_open_method(room));
    if (!is_open && !before) lapin_shared_marks(mine, channel, false);
    return is_open;
}

/* Opens a channel that nobody has: its number, 0 where it failed. */
static inline uint16_t lapin_shared_channel(lapin_caller *mine) {
    unsigned char room[LAPIN_HEAD];
    unsigned channel = 1, most;
    if (!lapin_begin(mine)) return 0;
    lapin_shared *s = mine->shared;
    lapin_states states;
    most = s->core.limits.channel_max ? s->core.limits.channel_max : 65535;
    for (; channel <= most; channel++)
        if (!lapin_is_taken(s, channel) && !lapin_state(&s->core.session, (uint16_t)channel, &states) && states.channel == LAPIN_CHANNEL_CLOSED)
            break;
    bool is_open = lapin_goes_on(mine) && (channel <= most || lapin_says(mine, "no channel is free"));
    if (is_open) {
        lapin_mark_taken(s, channel, true);
        is_open = lapin_ask_under(mine, (uint16_t)channel, lapin_channel_open_method(room), NULL, lapin_until(mine->timeout));
        if (!is_open) lapin_mark_taken(s, channel, false);
    }
    lapin_finish(mine);
    return is_open ? (uint16_t)channel : 0;
}

/* Closes a channel; its number may be given again. */
static inline bool lapin_shared_channel_close(lapin_caller *mine, uint16_t channel) {
    bool is_done = lapin_shared_does(mine, channel, lapin_close_method(true));
    lapin_shared_marks(mine, channel, false);
    return is_done;
}

static inline bool lapin_shared_confirm_select(lapin_caller *mine, uint16_t channel) {
    unsigned char room[LAPIN_HEAD];
    return lapin_shared_does(mine, channel, lapin_confirm_select_method(room));
}

static inline bool lapin_shared_recover(lapin_caller *mine, uint16_t channel) {
    unsigned char room[LAPIN_HEAD];
    return lapin_shared_does(mine, channel, lapin_recover_method(room));
}

static inline bool lapin_shared_tx_select(lapin_caller *mine, uint16_t channel) {
    unsigned char room[LAPIN_HEAD];
    return lapin_shared_does(mine, channel, lapin_tx_select_method(room));
}

static inline bool lapin_shared_tx_commit(lapin_caller *mine, uint16_t channel) {
    unsigned char room[LAPIN_HEAD];
    return lapin_shared_does(mine, channel, lapin_tx_commit_method(room));
}

static inline bool lapin_shared_tx_rollback(lapin_caller *mine, uint16_t channel) {
    unsigned char room[LAPIN_HEAD];
    return lapin_shared_does(mine, channel, lapin_tx_rollback_method(room));
}

static inline bool lapin_shared_qos(lapin_caller *mine, uint16_t channel, uint16_t prefetch, bool is_whole) {
    unsigned char room[LAPIN_HEAD];
    return lapin_shared_does(mine, channel, lapin_qos_method(room, prefetch, is_whole));
}

static inline bool lapin_shared_queue_declare(lapin_caller *mine, uint16_t channel, const char *queue, unsigned asked, const lapin_octets *arguments,
                                              lapin_queue *found) {
    unsigned char room[LAPIN_HEAD];
    const lapin_fields *fields = lapin_shared_asks(mine, channel, lapin_queue_declare_method(room, queue, asked), lapin_or_none(arguments));
    return lapin_tell_queue(fields, mine->answer, found);
}

static inline bool lapin_shared_queue_bind(lapin_caller *mine, uint16_t channel, const char *queue, const char *exchange, const char *routing_key,
                                           const lapin_octets *arguments) {
    unsigned char room[LAPIN_HEAD];
    return lapin_shared_asks(mine, channel, lapin_queue_bind_method(room, queue, exchange, routing_key), lapin_or_none(arguments)) != NULL;
}

static inline bool lapin_shared_queue_unbind(lapin_caller *mine, uint16_t channel, const char *queue, const char *exchange, const char *routing_key,
                                             const lapin_octets *arguments) {
    unsigned char room[LAPIN_HEAD];
    return lapin_shared_asks(mine, channel, lapin_queue_unbind_method(room, queue, exchange, routing_key), lapin_or_none(arguments)) != NULL;
}

static inline bool lapin_shared_queue_delete(lapin_caller *mine, uint16_t channel, const char *queue, unsigned asked, uint64_t *count) {
    unsigned char room[LAPIN_HEAD];
    return lapin_tell_count(lapin_shared_asks(mine, channel, lapin_queue_delete_method(room, queue, asked), NULL), count);
}

static inline bool lapin_shared_queue_purge(lapin_caller *mine, uint16_t channel, const char *queue, uint64_t *count) {
    unsigned char room[LAPIN_HEAD];
    return lapin_tell_count(lapin_shared_asks(mine, channel, lapin_queue_purge_method(room, queue), NULL), count);
}

static inline bool lapin_shared_exchange_declare(lapin_caller *mine, uint16_t channel, const char *exchange, const char *kind, unsigned asked,
                                                 const lapin_octets *arguments) {
    unsigned char room[LAPIN_HEAD];
    return lapin_shared_asks(mine, channel, lapin_exchange_declare_method(room, exchange, kind, asked), lapin_or_none(arguments)) != NULL;
}

static inline bool lapin_shared_exchange_delete(lapin_caller *mine, uint16_t channel, const char *exchange, unsigned asked) {
    unsigned char room[LAPIN_HEAD];
    return lapin_shared_does(mine, channel, lapin_exchange_delete_method(room, exchange, asked));
}

static inline bool lapin_shared_exchange_bind(lapin_caller *mine, uint16_t channel, const char *destination, const char *source,
                                              const char *routing_key, const lapin_octets *arguments) {
    unsigned char room[LAPIN_HEAD];
    return lapin_shared_asks(mine, channel, lapin_exchange_bind_method(room, destination, source, routing_key), lapin_or_none(arguments)) != NULL;
}

/* The consumer's number, 0 where it failed; its tag stands in mine->answer. */
static inline uint64_t lapin_shared_consume(lapin_caller *mine, uint16_t channel, const char *queue, const char *tag, unsigned asked,
                                            const lapin_octets *arguments) {
    unsigned char room[LAPIN_HEAD];
    const lapin_fields *fields = lapin_shared_asks(mine, channel, lapin_consume_method(room, queue, tag, asked), lapin_or_none(arguments));
    return fields ? fields->number : 0;
}

static inline bool lapin_shared_cancel(lapin_caller *mine, uint16_t channel, const char *tag) {
    unsigned char room[LAPIN_HEAD];
    return lapin_shared_does(mine, channel, lapin_cancel_method(room, tag));
}

/* How many the queue still has stands in mine->fields.messages. */
static inline bool lapin_shared_get(lapin_caller *mine, uint16_t channel, const char *queue, unsigned asked, lapin_delivered *message,
                                    bool *is_there) {
    unsigned char room[LAPIN_HEAD];
    const lapin_fields *fields = lapin_shared_asks(mine, channel, lapin_get_method(room, queue, asked), NULL);
    return lapin_tell_message(fields, mine->answer, message, is_there);
}

#endif
