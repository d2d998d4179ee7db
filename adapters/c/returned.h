/* Whose a message is that came back: the publishes of a connection whose outcomes aren't told yet, and the octets of the mandatory ones.
 *
 * The session gives a returned message to the publish that is settled next, since basic.return names no tag; a broker may settle others before
 * its own. So what came back goes to the oldest mandatory publish of its channel that it equals in exchange, routing key, properties and body.
 * A hash finds those that it may be, and their octets decide. For connection.h, which asks the session.
 */
#ifndef LAPIN_RETURNED_H
#define LAPIN_RETURNED_H

#include <stdlib.h>
#include <string.h>

#include "lapin.h"
#include "octets.h"

/* A message that came back, and why, as the broker says it. The properties are a list, as lapin_read_properties takes it; behind each of the others
 * stands a zero. */
typedef struct {
    uint16_t code;
    lapin_octets text, exchange, routing_key, properties, body;
} lapin_returned;

/* A mandatory publish. It has the text of its return once it came back. It stands in a chain of those with its hash, the oldest first; the first one's previous
 * is the last. */
typedef struct lapin_kept {
    struct lapin_kept *next, *previous;
    uint64_t hash;
    uint16_t channel;
    bool is_chained;
    char *text; /* of its return */
    lapin_returned message;
} lapin_kept;

/* A publish and its outcome, NONE while there is none. Once it is told nothing is kept of it but its number. */
typedef struct {
    uint64_t confirm;
    lapin_kept *kept;
    lapin_refusal *error; /* why, of LAPIN_ERROR */
    uint16_t channel;
    uint8_t outcome;
    bool is_told, is_aside; /* nobody will ask for it */
} lapin_publication;

/* Of one connection. Publications stand in the order of their numbers; those before `settled` have their outcomes, and those before `hashed` stand
 * in the chains where they are kept: until something comes back nothing is hashed. */
typedef struct {
    lapin_publication *at;
    size_t from, to, room, settled, swept, hashed, told, aside;
    lapin_kept **chains;
    size_t chain_count, kept;
    uint64_t keys[2];
    uint64_t due; /* returned messages that came and that nobody was given yet */
    unsigned char head[11];
    size_t head_length;
    uint64_t passed_over; /* octets up to the next frame */
} lapin_publications;

static inline uint64_t lapin_turned(uint64_t word, int by) { return word << by | word >> (64 - by); }

static inline void lapin_stir(uint64_t *v) {
    v[0] += v[1], v[1] = lapin_turned(v[1], 13) ^ v[0], v[0] = lapin_turned(v[0], 32);
    v[2] += v[3], v[3] = lapin_turned(v[3], 16) ^ v[2];
    v[0] += v[3], v[3] = lapin_turned(v[3], 21) ^ v[0];
    v[2] += v[1], v[1] = lapin_turned(v[1], 17) ^ v[2], v[2] = lapin_turned(v[2], 32);
}

/* SipHash-1-3: who sends bodies that meet in one chain has to know the keys. */
static inline uint64_t lapin_hash(uint64_t key, uint64_t other, lapin_octets bytes) {
    uint64_t v[4] = {key ^ 0x736f6d6570736575u, other ^ 0x646f72616e646f6du, key ^ 0x6c7967656e657261u, other ^ 0x7465646279746573u}, word;
    size_t at = 0;
    for (; bytes.length - at >= 8; at += 8) {
        memcpy(&word, bytes.at + at, 8);
        v[3] ^= word, lapin_stir(v), v[0] ^= word;
    }
    word = 0;
    if (bytes.length > at) memcpy(&word, bytes.at + at, bytes.length - at);
    word ^= (uint64_t)bytes.length << 56;
    v[3] ^= word, lapin_stir(v), v[0] ^= word, v[2] ^= 0xff;
    lapin_stir(v), lapin_stir(v), lapin_stir(v);
    return v[0] ^ v[1] ^ v[2] ^ v[3];
}

/* The hash of what a broker returns as it came; it may change the properties (RabbitMQ takes a header BCC out), so these have no part in it. */
static inline uint64_t lapin_hash_of(const lapin_publications *p, const lapin_returned *message) {
    uint64_t found = lapin_hash(p->keys[0], p->keys[1], message->exchange);
    found = lapin_hash(p->keys[0], found, message->routing_key);
    return lapin_hash(p->keys[0], found, message->body);
}

static inline void lapin_chain(lapin_publications *p, lapin_kept *kept) {
    lapin_kept **first = &p->chains[kept->hash & (p->chain_count - 1)];
    kept->next = NULL, kept->is_chained = true;
    kept->previous = *first ? (*first)->previous : kept;
    if (*first) (*first)->previous->next = kept, (*first)->previous = kept;
    else *first = kept;
}

static inline void lapin_unchain(lapin_publications *p, lapin_kept *kept) {
    if (!kept->is_chained) return;
    lapin_kept **first = &p->chains[kept->hash & (p->chain_count - 1)];
    if (kept->next) kept->next->previous = kept->previous;
    else if (*first != kept) (*first)->previous = kept->previous;
    if (*first == kept) *first = kept->next;
    else kept->previous->next = kept->next;
    kept->is_chained = false;
}

/* Room for one more in the chains. They grow so that a chain has about one, and keep their order. */
static inline bool lapin_more_chains(lapin_publications *p) {
    if (p->kept < p->chain_count) return true;
    size_t old = p->chain_count, count = old ? 2 * old : 64;
    lapin_kept **all = p->chains, **more = (lapin_kept **)calloc(count, sizeof *more);
    if (!more) return false;
    p->chains = more, p->chain_count = count;
    for (size_t i = 0; i < old; i++)
        for (lapin_kept *each = all[i], *next; each; each = next) next = each->next, lapin_chain(p, each);
    free(all);
    return true;
}

/* Room for one more publication; those that were told go first. */
static inline bool lapin_more_publications(lapin_publications *p) {
    if (p->to < p->room) return true;
    size_t to = 0, settled = 0, hashed = 0, live = p->to - p->from - p->told;
    if (2 * live >= p->room) {
        size_t room = p->room ? 2 * p->room : 64;
        lapin_publication *more = (lapin_publication *)realloc(p->at, room * sizeof *more);
        if (!more) return false;
        p->at = more, p->room = room;
    }
    for (size_t i = p->from; i < p->to; i++) {
        if (p->at[i].is_told) continue;
        settled += i < p->settled, hashed += i < p->hashed;
        p->at[to++] = p->at[i];
    }
    p->from = 0, p->to = to, p->settled = p->swept = settled, p->hashed = hashed, p->told = 0;
    return true;
}

/* It is counted no more, and stands in no chain: whoever has it frees it. */
static inline void lapin_part_with(lapin_publications *p, lapin_kept *kept) {
    lapin_unchain(p, kept);
    p->kept--;
}

static inline void lapin_free_kept(lapin_kept *kept) {
    if (kept) free(kept->text), free(kept);
}

static inline void lapin_let_go(lapin_publications *p, lapin_kept *kept) {
    if (kept) lapin_part_with(p, kept), lapin_free_kept(kept);
}

static inline lapin_octets lapin_copied(char **room, lapin_octets from) {
    lapin_octets copy = {*room, from.length};
    if (from.length) memcpy(*room, from.at, from.length);
    (*room)[from.length] = 0, *room += from.length + 1;
    return copy;
}

/* The octets of a mandatory publish, kept until its outcome is told; NULL where there is no memory. */
static inline lapin_kept *lapin_keep(lapin_publications *p, uint16_t channel, const lapin_returned *message) {
    size_t length = message->exchange.length + message->routing_key.length + message->properties.length + 4;
    if (!lapin_more_chains(p) || message->body.length > SIZE_MAX - length - sizeof(lapin_kept)) return NULL;
    lapin_kept *kept = (lapin_kept *)malloc(sizeof *kept + length + message->body.length);
    if (!kept) return NULL;
    char *room = (char *)(kept + 1);
    memset(kept, 0, sizeof *kept);
    kept->channel = channel, p->kept++;
    kept->message.exchange = lapin_copied(&room, message->exchange);
    kept->message.routing_key = lapin_copied(&room, message->routing_key);
    kept->message.properties = lapin_copied(&room, message->properties);
    kept->message.body = lapin_copied(&room, message->body);
    return kept;
}

/* It came back, and why is kept; without the broker's text where there is no memory for it. */
static inline void lapin_keep_text(lapin_kept *kept, const lapin_returned *message) {
    kept->message.code = message->code;
    kept->text = (char *)malloc(message->text.length + 1);
    char *room = kept->text;
    if (room) kept->message.text = lapin_copied(&room, message->text);
    else kept->message.text.at = "";
}

/* Adds a publish, for which there is room, by the number of its confirm. */
static inline void lapin_add(lapin_publications *p, uint64_t confirm, uint16_t channel, lapin_kept *kept) {
    lapin_publication *added = &p->at[p->to++];
    memset(added, 0, sizeof *added);
    added->confirm = confirm, added->channel = channel, added->kept = kept;
}

/* The place of the first publication whose number isn't below this one. Most stand where their numbers say. */
static inline size_t lapin_place(const lapin_publications *p, uint64_t confirm) {
    size_t low = p->from, high = p->to;
    uint64_t guess = low < high ? confirm - p->at[low].confirm : 0; /* of a number below the first it is greater than all */
    if (guess < high - low && p->at[low + guess].confirm == confirm) return low + (size_t)guess;
    while (low < high) {
        size_t middle = low + (high - low) / 2;
        if (p->at[middle].confirm < confirm) low = middle + 1;
        else high = middle;
    }
    return low;
}

/* The publication of a number; NULL where it was told or isn't the connection's. */
static inline lapin_publication *lapin_find(const lapin_publications *p, uint64_t confirm) {
    size_t place = lapin_place(p, confirm);
    return place < p->to && p->at[place].confirm == confirm && !p->at[place].is_told ? &p->at[place] : NULL;
}

/* Those that were told go from the front; `told` counts the others. */
static inline void lapin_pass_told(lapin_publications *p) {
    while (p->told && p->at[p->from].is_told) p->from++, p->told--;
    if (p->settled < p->from) p->settled = p->from;
    if (p->swept < p->from) p->swept = p->from;
    if (p->from == p->to) p->due = 0; /* what still comes back is nobody's */
}

/* The outcome of the oldest was told, on which nothing hangs but its number. */
static inline void lapin_pass(lapin_publications *p) {
    p->from++;
    lapin_pass_told(p);
}

/* Its outcome was told, or nobody asks for it. What came back of it is the caller's, if there is something. */
static inline lapin_kept *lapin_tell(lapin_publications *p, lapin_publication *publication) {
    lapin_kept *back = publication->kept && publication->kept->message.text.at ? publication->kept : NULL;
    if (!back) lapin_let_go(p, publication->kept);
    if (publication->error) free(publication->error);
    p->aside -= publication->is_aside;
    publication->kept = NULL, publication->error = NULL, publication->is_told = true, p->told++;
    lapin_pass_told(p);
    return back;
}

/* Gives a returned message to its publish, of its channel where that is known (not 0): whether there is one. Where none equals it whole, the broker
 * changed its properties. */
static inline bool lapin_give(lapin_publications *p, uint16_t channel, const lapin_returned *message) {
    lapin_kept *found = NULL;
    if (p->hashed < p->from) p->hashed = p->from;
    for (; p->hashed < p->to; p->hashed++) {
        lapin_kept *kept = p->at[p->hashed].kept;
        if (kept && !kept->message.text.at) kept->hash = lapin_hash_of(p, &kept->message), lapin_chain(p, kept);
    }
    if (!p->kept) return false;
    for (lapin_kept *each = p->chains[lapin_hash_of(p, message) & (p->chain_count - 1)]; each; each = each->next) {
        const lapin_returned *its = &each->message;
        if ((channel && each->channel != channel) || !lapin_equal(its->exchange, message->exchange) || !lapin_equal(its->routing_key, message->routing_key) ||
            !lapin_equal(its->body, message->body))
            continue;
        bool is_whole = lapin_equal(its->properties, message->properties);
        if (is_whole || !found) found = each;
        if (is_whole) break;
    }
    if (!found) return false;
    lapin_unchain(p, found);
    lapin_keep_text(found, message);
    return true;
}

/* Counts the methods basic.return among the octets that came, in whatever pieces: while none is due nobody needs to look for one. */
static inline void lapin_count_returns(lapin_publications *p, const unsigned char *bytes, size_t length) {
    while (length) {
        if (p->passed_over) {
            size_t step = p->passed_over < length ? (size_t)p->passed_over : length;
            bytes += step, length -= step, p->passed_over -= step;
            continue;
        }
        unsigned char *head = p->head;
        if (!p->head_length && length >= 11) { /* whole, as most are; the octets of a short frame behind its end decide nothing */
            uint64_t whole = lapin_frame_length(bytes);
            if (whole >= 12 && bytes[0] == 1 && !memcmp(bytes + 7, "\0\x3c\0\x32", 4)) p->due++;
            p->passed_over = whole;
            continue;
        }
        head[p->head_length++] = *bytes++, length--;
        if (p->head_length < 7) continue;
        uint64_t size = lapin_frame_length(head); /* eight octets more than the payload */
        if (p->head_length < 11 && size >= 12) continue;
        if (p->head_length == 11 && head[0] == 1 && !memcmp(head + 7, "\0\x3c\0\x32", 4)) p->due++;
        p->passed_over = size - p->head_length, p->head_length = 0;
    }
}

static inline void lapin_forget_all(lapin_publications *p) {
    for (size_t i = p->from; i < p->to; i++) lapin_let_go(p, p->at[i].kept), free(p->at[i].error);
    free(p->at), free(p->chains);
    memset(p, 0, sizeof *p);
}

#endif
