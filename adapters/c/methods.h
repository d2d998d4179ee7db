/* The methods of calls as octets: their classes, their numbers and their arguments, without the table that stands behind some of them.
 *
 * Each is written into a room of LAPIN_HEAD octets, and stands nowhere where a name is longer than 255 bytes. Names end by a zero. For calls.h and
 * shared_calls.h, which make the calls.
 */
#ifndef LAPIN_METHODS_H
#define LAPIN_METHODS_H

#include "octets.h"

/* What may be asked for beside; each call says which it knows. */
enum {
    LAPIN_PASSIVE = 1,
    LAPIN_DURABLE = 2,
    LAPIN_EXCLUSIVE = 4,
    LAPIN_AUTO_DELETE = 8,
    LAPIN_INTERNAL = 16,
    LAPIN_NO_ACK = 32,
    LAPIN_IF_UNUSED = 64,
    LAPIN_IF_EMPTY = 128,
    LAPIN_NO_LOCAL = 256
};

enum { LAPIN_HEAD = 1100 };

static inline lapin_writer lapin_method(void *room, unsigned klass, unsigned number) {
    lapin_writer w = lapin_into(room, LAPIN_HEAD);
    lapin_put_number(&w, klass, 2), lapin_put_number(&w, number, 2);
    return w;
}

/* Of most methods: a ticket, of which brokers know nothing, and names, up to three; NULL for none. */
static inline lapin_writer lapin_of_names(void *room, unsigned klass, unsigned number, const char *first, const char *second, const char *third) {
    lapin_writer w = lapin_method(room, klass, number);
    lapin_put_number(&w, 0, 2), lapin_put_short(&w, lapin_text(first));
    if (second) lapin_put_short(&w, lapin_text(second));
    if (third) lapin_put_short(&w, lapin_text(third));
    return w;
}

static inline unsigned lapin_bit(unsigned asked, unsigned mark, unsigned place) { return asked & mark ? 1u << place : 0; }

/* The names, and an octet of marks behind them. */
static inline lapin_octets lapin_with_marks(lapin_writer w, unsigned marks) {
    lapin_put_number(&w, marks, 1);
    return lapin_written(&w);
}

/* The class and the number, and perhaps an octet. */
static inline lapin_octets lapin_plain_method(void *room, unsigned klass, unsigned number, int octet) {
    lapin_writer w = lapin_method(room, klass, number);
    if (octet >= 0) lapin_put_number(&w, (unsigned)octet, 1);
    return lapin_written(&w);
}

#define LAPIN_CHANNEL_CLOSE "\0\x14\0\x28\0\xc8\3bye\0\0\0\0"    /* 14 bytes: by the code 200 and the text "bye" */
#define LAPIN_CONNECTION_CLOSE "\0\x0a\0\x32\0\xc8\3bye\0\0\0\0" /* 14 bytes */

static inline lapin_octets lapin_close_method(bool is_channel) {
    lapin_octets found = {is_channel ? LAPIN_CHANNEL_CLOSE : LAPIN_CONNECTION_CLOSE, 14};
    return found;
}

static inline lapin_octets lapin_channel_open_method(void *room) { return lapin_plain_method(room, 20, 10, 0); }
static inline lapin_octets lapin_confirm_select_method(void *room) { return lapin_plain_method(room, 85, 10, 0); }
static inline lapin_octets lapin_recover_method(void *room) { return lapin_plain_method(room, 60, 110, 1); }
static inline lapin_octets lapin_tx_select_method(void *room) { return lapin_plain_method(room, 90, 10, -1); }
static inline lapin_octets lapin_tx_commit_method(void *room) { return lapin_plain_method(room, 90, 20, -1); }
static inline lapin_octets lapin_tx_rollback_method(void *room) { return lapin_plain_method(room, 90, 30, -1); }

static inline lapin_octets lapin_qos_method(void *room, uint16_t prefetch, bool is_whole) {
    lapin_writer w = lapin_method(room, 60, 10);
    lapin_put_number(&w, 0, 4), lapin_put_number(&w, prefetch, 2), lapin_put_number(&w, is_whole, 1);
    return lapin_written(&w);
}

static inline lapin_octets lapin_queue_declare_method(void *room, const char *queue, unsigned asked) {
    return lapin_with_marks(lapin_of_names(room, 50, 10, queue, NULL, NULL), asked & 15u);
}

static inline lapin_octets lapin_queue_bind_method(void *room, const char *queue, const char *exchange, const char *routing_key) {
    return lapin_with_marks(lapin_of_names(room, 50, 20, queue, exchange, routing_key), 0);
}

static inline lapin_octets lapin_queue_unbind_method(void *room, const char *queue, const char *exchange, const char *routing_key) {
    lapin_writer w = lapin_of_names(room, 50, 50, queue, exchange, routing_key);
    return lapin_written(&w);
}

static inline lapin_octets lapin_queue_delete_method(void *room, const char *queue, unsigned asked) {
    unsigned marks = lapin_bit(asked, LAPIN_IF_UNUSED, 0) | lapin_bit(asked, LAPIN_IF_EMPTY, 1);
    return lapin_with_marks(lapin_of_names(room, 50, 40, queue, NULL, NULL), marks);
}

static inline lapin_octets lapin_queue_purge_method(void *room, const char *queue) {
    return lapin_with_marks(lapin_of_names(room, 50, 30, queue, NULL, NULL), 0);
}

static inline lapin_octets lapin_exchange_declare_method(void *room, const char *exchange, const char *kind, unsigned asked) {
    unsigned marks = (asked & 3u) | lapin_bit(asked, LAPIN_AUTO_DELETE, 2) | lapin_bit(asked, LAPIN_INTERNAL, 3);
    return lapin_with_marks(lapin_of_names(room, 40, 10, exchange, kind, NULL), marks);
}

static inline lapin_octets lapin_exchange_delete_method(void *room, const char *exchange, unsigned asked) {
    return lapin_with_marks(lapin_of_names(room, 40, 20, exchange, NULL, NULL), lapin_bit(asked, LAPIN_IF_UNUSED, 0));
}

static inline lapin_octets lapin_exchange_bind_method(void *room, const char *destination, const char *source, const char *routing_key) {
    return lapin_with_marks(lapin_of_names(room, 40, 30, destination, source, routing_key), 0);
}

static inline lapin_octets lapin_consume_method(void *room, const char *queue, const char *tag, unsigned asked) {
    unsigned marks = lapin_bit(asked, LAPIN_NO_LOCAL, 0) | lapin_bit(asked, LAPIN_NO_ACK, 1) | lapin_bit(asked, LAPIN_EXCLUSIVE, 2);
    return lapin_with_marks(lapin_of_names(room, 60, 20, queue, tag, NULL), marks);
}

static inline lapin_octets lapin_cancel_method(void *room, const char *tag) {
    lapin_writer w = lapin_method(room, 60, 30);
    lapin_put_short(&w, lapin_text(tag));
    return lapin_with_marks(w, 0);
}

static inline lapin_octets lapin_get_method(void *room, const char *queue, unsigned asked) {
    return lapin_with_marks(lapin_of_names(room, 60, 70, queue, NULL, NULL), lapin_bit(asked, LAPIN_NO_ACK, 0));
}

#endif
