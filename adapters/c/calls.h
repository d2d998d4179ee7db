/* The calls of a connection that wait for an answer, each once: their methods as octets, what their replies say, and why they failed.
 *
 * Names end by a zero. Arguments are the pairs of a table, as octets.h writes them, and NULL where there are none. A call answers false where it
 * failed, and lapin_error says why; what it tells is good until the next call of the connection.
 */
#ifndef LAPIN_CALLS_H
#define LAPIN_CALLS_H

#include "transport.h"

#include "methods.h"

/* A declared queue. */
typedef struct {
    const char *name;
    uint32_t messages, consumers;
} lapin_queue;

/* A message. Its parts are good until the next call: the properties are a list, as lapin_read_properties takes it. */
typedef struct {
    lapin_message numbers;
    lapin_octets exchange, routing_key, properties, body;
} lapin_delivered;

/* The error of a call on a channel, by its cause, with the broker's words. */
static inline bool lapin_explain(lapin_connection *c, uint16_t channel, const lapin_refusal *why) {
    char words[400], told[200];
    if (c->is_lost && why->kind == LAPIN_WHY_CONNECTION_LOST) return lapin_lose(c, c->lost);
    const char *last = lapin_words(c, channel, why, words, sizeof words);
    return lapin_fails(c, "%s%s", lapin_named(why, told, sizeof told), last);
}

/* The error that a status is. */
static inline bool lapin_refuses(lapin_connection *c, uint16_t channel, uint32_t status) {
    static const char *const WHY[] = {"", "", "not in the grammar: octets that are no call, or a name that is longer than 255 bytes or no UTF-8",
                                      "no memory", "the session takes nothing further", "", "longer than a frame may be", "no connection"};
    lapin_refusal why;
    if (status == LAPIN_REFUSED && lapin_why(&c->session, &why) == LAPIN_DONE) return lapin_explain(c, channel, &why);
    return lapin_fails(c, "%s", status < 8 && status != LAPIN_REFUSED ? WHY[status] : "refused");
}

/* What was made before leaves before what is made next: it stands among the bytes that leave, and where these are many they leave first. */
static inline bool lapin_in_order(lapin_connection *c, uint64_t until) {
    if (!lapin_collect(c)) return false;
    return c->leaving_to - c->leaving_from < LAPIN_ENOUGH || lapin_flush_until(c, until);
}

/* The octets of a call, with the table behind them where there is one, in a room of the connection's. */
static inline bool lapin_spell(lapin_connection *c, lapin_octets head, const lapin_octets *table, lapin_octets *method) {
    size_t more = table ? table->length : 0;
    if (!head.at || (table && !table->at)) return lapin_fails(c, "a name of more than 255 bytes, or a table that was not written whole");
    if (more > SIZE_MAX / 4 || !lapin_fit(&c->method, &c->method_length, head.length + 4 + more)) return lapin_fails(c, "no memory");
    lapin_writer w = lapin_into(c->method, c->method_length);
    lapin_put(&w, head.at, head.length);
    if (table) lapin_put_long(&w, *table);
    *method = lapin_written(&w);
    return true;
}

/* What an answer says that came, by the status of its reply: it stands in c->fields and c->answer. */
static inline bool lapin_take_answer(lapin_connection *c, uint16_t channel, uint32_t status) {
    lapin_fields *found = &c->fields;
    if (status) return lapin_refuses(c, channel, status);
    bool has_answer = found->kind == LAPIN_REPLY_QUEUE || found->kind == LAPIN_REPLY_CONSUMER || found->kind == LAPIN_REPLY_MESSAGE;
    uint64_t consumer = found->kind == LAPIN_REPLY_CONSUMER ? found->number : 0;
    if (consumer) c->consumers[consumer % LAPIN_REMEMBERED].consumer = consumer, c->consumers[consumer % LAPIN_REMEMBERED].channel = channel;
    return !has_answer || lapin_told(c) != NULL;
}

static inline bool lapin_is_unanswered(lapin_connection *c, unsigned klass, unsigned number) {
    return lapin_fails(c, "TimedOut: no answer in time to class %u, method %u", klass, number);
}

/* Makes the call of a method, and waits for its answer, which stands in c->fields and c->answer. */
static inline bool lapin_answered(lapin_connection *c, uint16_t channel, lapin_octets method, uint64_t until) {
    uint64_t ticket;
    if (!lapin_in_order(c, until)) return lapin_fails(c, "%s; the call was not made", c->error);
    uint32_t status = lapin_call(&c->session, channel, method.at, method.length, &ticket);
    if (status) return lapin_refuses(c, channel, status);
    bool is_late = !lapin_push(c) && !c->is_lost;
    while (!is_late && (status = lapin_reply(&c->session, ticket, &c->fields)) == LAPIN_PENDING && !c->is_lost) {
        is_late = lapin_now() >= until || (!lapin_turn_until(c, until) && !c->is_lost);
        if (is_late && lapin_now() >= until) lapin_is_unanswered(c, (unsigned char)method.at[1], (unsigned char)method.at[3]);
    }
    if (is_late) return lapin_forget_call(&c->session, ticket), false;
    return status == LAPIN_PENDING ? lapin_lose(c, c->lost) : lapin_take_answer(c, channel, status);
}

/* Makes a call of these octets, and of a table behind them where there is one. */
static inline const lapin_fields *lapin_asks(lapin_connection *c, uint16_t channel, lapin_octets head, const lapin_octets *table) {
    int before = errno;
    lapin_octets method = {NULL, 0};
    if (!lapin_enter(c)) return NULL;
    bool is_done = lapin_spell(c, head, table, &method) && lapin_is_alive(c) && lapin_answered(c, channel, method, lapin_until(c->timeout));
    c->is_inside = false, errno = before;
    return is_done ? &c->fields : NULL;
}

/* Makes the call of a method's octets (its class and its number, two octets each, and its arguments), and waits for its answer: what its reply
 * says, and the octets of it in c->answer; NULL where the call was refused or failed, or where no answer came within the timeout: then nobody is
 * told it, or the call was not made, as lapin_error says. What was made before leaves before. */
static inline const lapin_fields *lapin_ask(lapin_connection *c, uint16_t channel, const void *method, size_t length) {
    lapin_octets octets = {(const char *)method, length};
    if (length < 4) octets.at = NULL;
    return lapin_asks(c, channel, octets, NULL);
}

/* ---- what is made of an answer */

static inline const lapin_octets *lapin_or_none(const lapin_octets *arguments) {
    static const lapin_octets NONE = {"", 0};
    return arguments ? arguments : &NONE;
}

static inline bool lapin_tell_queue(const lapin_fields *fields, const char *answer, lapin_queue *found) {
    if (fields && found) found->name = answer, found->messages = fields->messages, found->consumers = fields->consumers;
    return fields != NULL;
}

static inline bool lapin_tell_count(const lapin_fields *fields, uint64_t *count) {
    if (fields && count) *count = fields->number;
    return fields != NULL;
}

/* The parts of a message that is the answer. */
static inline void lapin_part(const char *answer, lapin_delivered *message) {
    const lapin_message *of = &message->numbers;
    message->exchange.at = answer, message->exchange.length = of->exchange;
    message->routing_key.at = answer + of->exchange, message->routing_key.length = of->routing_key;
    message->properties.at = message->routing_key.at + of->routing_key, message->properties.length = of->properties;
    message->body.at = message->properties.at + of->properties, message->body.length = of->body;
}

static inline bool lapin_tell_message(const lapin_fields *fields, const char *answer, lapin_delivered *message, bool *is_there) {
    if (!fields) return false;
    *is_there = fields->kind == LAPIN_REPLY_MESSAGE;
    if (*is_there) message->numbers = fields->message, lapin_part(answer, message);
    return true;
}

/* ---- the calls */

/* Has this method done. */
static inline bool lapin_does(lapin_connection *c, uint16_t channel, lapin_octets method) { return lapin_asks(c, channel, method, NULL) != NULL; }

static inline bool lapin_channel_open(lapin_connection *c, uint16_t channel) {
    unsigned char room[LAPIN_HEAD];
    return lapin_does(c, channel, lapin_channel_open_method(room));
}

static inline bool lapin_channel_close(lapin_connection *c, uint16_t channel) { return lapin_does(c, channel, lapin_close_method(true)); }

static inline bool lapin_confirm_select(lapin_connection *c, uint16_t channel) {
    unsigned char room[LAPIN_HEAD];
    return lapin_does(c, channel, lapin_confirm_select_method(room));
}

static inline bool lapin_recover(lapin_connection *c, uint16_t channel) {
    unsigned char room[LAPIN_HEAD];
    return lapin_does(c, channel, lapin_recover_method(room));
}

static inline bool lapin_tx_select(lapin_connection *c, uint16_t channel) {
    unsigned char room[LAPIN_HEAD];
    return lapin_does(c, channel, lapin_tx_select_method(room));
}

static inline bool lapin_tx_commit(lapin_connection *c, uint16_t channel) {
    unsigned char room[LAPIN_HEAD];
    return lapin_does(c, channel, lapin_tx_commit_method(room));
}

static inline bool lapin_tx_rollback(lapin_connection *c, uint16_t channel) {
    unsigned char room[LAPIN_HEAD];
    return lapin_does(c, channel, lapin_tx_rollback_method(room));
}

/* How many messages of each consumer of the channel may be unsettled, 0 for no limit; of the channel as a whole with is_whole. */
static inline bool lapin_qos(lapin_connection *c, uint16_t channel, uint16_t prefetch, bool is_whole) {
    unsigned char room[LAPIN_HEAD];
    return lapin_does(c, channel, lapin_qos_method(room, prefetch, is_whole));
}

/* PASSIVE, DURABLE, EXCLUSIVE, AUTO_DELETE. With an empty name the broker makes one up. What it is, where found isn't NULL. */
static inline bool lapin_queue_declare(lapin_connection *c, uint16_t channel, const char *queue, unsigned asked, const lapin_octets *arguments,
                                       lapin_queue *found) {
    unsigned char room[LAPIN_HEAD];
    const lapin_fields *fields = lapin_asks(c, channel, lapin_queue_declare_method(room, queue, asked), lapin_or_none(arguments));
    return lapin_tell_queue(fields, c->answer, found);
}

static inline bool lapin_queue_bind(lapin_connection *c, uint16_t channel, const char *queue, const char *exchange, const char *routing_key,
                                    const lapin_octets *arguments) {
    unsigned char room[LAPIN_HEAD];
    return lapin_asks(c, channel, lapin_queue_bind_method(room, queue, exchange, routing_key), lapin_or_none(arguments)) != NULL;
}

static inline bool lapin_queue_unbind(lapin_connection *c, uint16_t channel, const char *queue, const char *exchange, const char *routing_key,
                                      const lapin_octets *arguments) {
    unsigned char room[LAPIN_HEAD];
    return lapin_asks(c, channel, lapin_queue_unbind_method(room, queue, exchange, routing_key), lapin_or_none(arguments)) != NULL;
}

/* IF_UNUSED, IF_EMPTY. How many messages it had, where count isn't NULL. */
static inline bool lapin_queue_delete(lapin_connection *c, uint16_t channel, const char *queue, unsigned asked, uint64_t *count) {
    unsigned char room[LAPIN_HEAD];
    return lapin_tell_count(lapin_asks(c, channel, lapin_queue_delete_method(room, queue, asked), NULL), count);
}

/* How many messages were dropped, where count isn't NULL. */
static inline bool lapin_queue_purge(lapin_connection *c, uint16_t channel, const char *queue, uint64_t *count) {
    unsigned char room[LAPIN_HEAD];
    return lapin_tell_count(lapin_asks(c, channel, lapin_queue_purge_method(room, queue), NULL), count);
}

/* PASSIVE, DURABLE, AUTO_DELETE, INTERNAL. The kind is direct, fanout, topic, headers, or one of the broker's own. */
static inline bool lapin_exchange_declare(lapin_connection *c, uint16_t channel, const char *exchange, const char *kind, unsigned asked,
                                          const lapin_octets *arguments) {
    unsigned char room[LAPIN_HEAD];
    return lapin_asks(c, channel, lapin_exchange_declare_method(room, exchange, kind, asked), lapin_or_none(arguments)) != NULL;
}

/* IF_UNUSED. */
static inline bool lapin_exchange_delete(lapin_connection *c, uint16_t channel, const char *exchange, unsigned asked) {
    unsigned char room[LAPIN_HEAD];
    return lapin_does(c, channel, lapin_exchange_delete_method(room, exchange, asked));
}

static inline bool lapin_exchange_bind(lapin_connection *c, uint16_t channel, const char *destination, const char *source, const char *routing_key,
                                       const lapin_octets *arguments) {
    unsigned char room[LAPIN_HEAD];
    return lapin_asks(c, channel, lapin_exchange_bind_method(room, destination, source, routing_key), lapin_or_none(arguments)) != NULL;
}

/* NO_LOCAL, NO_ACK, EXCLUSIVE. With an empty tag the broker makes one up, which stands in c->answer. The consumer's number, 0 where it failed. */
static inline uint64_t lapin_consume(lapin_connection *c, uint16_t channel, const char *queue, const char *tag, unsigned asked,
                                     const lapin_octets *arguments) {
    unsigned char room[LAPIN_HEAD];
    const lapin_fields *fields = lapin_asks(c, channel, lapin_consume_method(room, queue, tag, asked), lapin_or_none(arguments));
    return fields ? fields->number : 0;
}

static inline bool lapin_cancel(lapin_connection *c, uint16_t channel, const char *tag) {
    unsigned char room[LAPIN_HEAD];
    return lapin_does(c, channel, lapin_cancel_method(room, tag));
}

/* NO_ACK. The oldest message of a queue, where is_there: how many the queue still has stands in c->fields.messages. */
static inline bool lapin_get(lapin_connection *c, uint16_t channel, const char *queue, unsigned asked, lapin_delivered *message, bool *is_there) {
    unsigned char room[LAPIN_HEAD];
    const lapin_fields *fields = lapin_asks(c, channel, lapin_get_method(room, queue, asked), NULL);
    return lapin_tell_message(fields, c->answer, message, is_there);
}

#endif
