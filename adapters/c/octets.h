/* AMQP's octets: the values of tables and arrays, and a content header's list of properties, written into a room of the caller's and read where
 * they lie. The library hands such octets through as they are, so that nobody looks at them but who wrote them and who reads them.
 *
 * A writer that has no room, or was given a text that is too long for its length, is bad from then on, and what it wrote is none. A reader goes
 * never behind the end of what it was given: octets that are no table, no array or no list of properties make it bad.
 */
#ifndef LAPIN_OCTETS_H
#define LAPIN_OCTETS_H

#include <stdbool.h>
#include <stddef.h>
#include <stdint.h>
#include <string.h>

/* Octets with their number. */
typedef struct {
    const char *at;
    size_t length;
} lapin_octets;

/* The octets of a text. */
static inline lapin_octets lapin_text(const char *text) {
    lapin_octets found = {text, strlen(text)};
    return found;
}

/* ---- written */

typedef struct {
    unsigned char *at;
    size_t room, length;
    bool is_bad;
} lapin_writer;

static inline lapin_writer lapin_into(void *room, size_t size) {
    lapin_writer w = {(unsigned char *)room, size, 0, false};
    return w;
}

/* What was written; nowhere where the writer is bad, which each call that is given it refuses. */
static inline lapin_octets lapin_written(const lapin_writer *w) {
    lapin_octets found = {w->is_bad ? NULL : (const char *)w->at, w->is_bad ? 0 : w->length};
    return found;
}

static inline void lapin_put(lapin_writer *w, const void *bytes, size_t length) {
    w->is_bad |= length > w->room - w->length;
    if (w->is_bad) return;
    if (length) memcpy(w->at + w->length, bytes, length);
    w->length += length;
}

/* A number of so many octets. */
static inline void lapin_put_number(lapin_writer *w, uint64_t number, unsigned octets) {
    unsigned char bytes[8];
    for (unsigned i = 0; i < octets; i++) bytes[i] = (unsigned char)(number >> 8 * (octets - 1 - i));
    lapin_put(w, bytes, octets);
}

/* A short text: at most 255 octets. */
static inline void lapin_put_short(lapin_writer *w, lapin_octets text) {
    w->is_bad |= text.length > 255;
    lapin_put_number(w, text.length, 1), lapin_put(w, text.at, text.length);
}

/* Octets behind their number, of four octets. */
static inline void lapin_put_long(lapin_writer *w, lapin_octets octets) {
    w->is_bad |= octets.length > UINT32_MAX;
    lapin_put_number(w, octets.length, 4), lapin_put(w, octets.at, octets.length);
}

/* ---- values of a table, each with its key; within an array the key is NULL */

static inline void lapin_put_type(lapin_writer *w, const char *key, char type) {
    if (key) lapin_put_short(w, lapin_text(key));
    lapin_put(w, &type, 1);
}

static inline void lapin_put_bool(lapin_writer *w, const char *key, bool value) { lapin_put_type(w, key, 't'), lapin_put_number(w, value, 1); }

/* A whole number, by 32 bits where it fits. */
static inline void lapin_put_int(lapin_writer *w, const char *key, int64_t value) {
    bool is_small = value >= INT32_MIN && value <= INT32_MAX;
    lapin_put_type(w, key, is_small ? 'I' : 'l'), lapin_put_number(w, (uint64_t)value, is_small ? 4 : 8);
}

/* How many octets a number, a float or a time has by the letter of its type: b B s U u I i l L f d T; 0 for any other one. */
static inline unsigned lapin_width(char type) {
    static const struct { char type; unsigned char width; } WIDTHS[] = {{'t', 1}, {'b', 1}, {'B', 1}, {'s', 2}, {'U', 2}, {'u', 2}, {'I', 4},
                                                                        {'i', 4}, {'l', 8}, {'L', 8}, {'f', 4}, {'d', 8}, {'T', 8}};
    for (size_t i = 0; i < sizeof WIDTHS / sizeof *WIDTHS; i++)
        if (WIDTHS[i].type == type) return WIDTHS[i].width;
    return 0;
}

/* A number of this very type, by its two's complement: b B s U u I i l L or T. */
static inline void lapin_put_number_of(lapin_writer *w, const char *key, char type, uint64_t value) {
    w->is_bad |= !lapin_width(type);
    lapin_put_type(w, key, type), lapin_put_number(w, value, lapin_width(type));
}

static inline void lapin_put_float(lapin_writer *w, const char *key, float value) {
    uint32_t bits;
    memcpy(&bits, &value, 4);
    lapin_put_type(w, key, 'f'), lapin_put_number(w, bits, 4);
}

static inline void lapin_put_double(lapin_writer *w, const char *key, double value) {
    uint64_t bits;
    memcpy(&bits, &value, 8);
    lapin_put_type(w, key, 'd'), lapin_put_number(w, bits, 8);
}

/* A decimal: digits, of which so many stand behind the point. */
static inline void lapin_put_decimal(lapin_writer *w, const char *key, uint8_t places, int32_t digits) {
    lapin_put_type(w, key, 'D'), lapin_put_number(w, places, 1), lapin_put_number(w, (uint32_t)digits, 4);
}

static inline void lapin_put_text(lapin_writer *w, const char *key, lapin_octets text) { lapin_put_type(w, key, 'S'), lapin_put_long(w, text); }
static inline void lapin_put_bytes(lapin_writer *w, const char *key, lapin_octets bytes) { lapin_put_type(w, key, 'x'), lapin_put_long(w, bytes); }
/* Seconds since 1970. */
static inline void lapin_put_time(lapin_writer *w, const char *key, uint64_t seconds) { lapin_put_number_of(w, key, 'T', seconds); }
static inline void lapin_put_nothing(lapin_writer *w, const char *key) { lapin_put_type(w, key, 'V'); }

/* A table or an array within this one begins: what is put now lies in it, until lapin_end of what this answers. */
static inline size_t lapin_begin_table(lapin_writer *w, const char *key) { return lapin_put_type(w, key, 'F'), lapin_put_number(w, 0, 4), w->length; }
static inline size_t lapin_begin_array(lapin_writer *w, const char *key) { return lapin_put_type(w, key, 'A'), lapin_put_number(w, 0, 4), w->length; }
static inline void lapin_end(lapin_writer *w, size_t begin) {
    lapin_writer head = {w->at, begin, begin - 4, false};
    w->is_bad |= w->length - begin > UINT32_MAX;
    if (!w->is_bad) lapin_put_number(&head, w->length - begin, 4);
}

/* ---- read */

typedef struct {
    const unsigned char *at, *end;
    bool is_bad;
} lapin_reader;

static inline lapin_reader lapin_from(lapin_octets octets) {
    static const unsigned char nothing = 0;
    const unsigned char *at = octets.at ? (const unsigned char *)octets.at : &nothing;
    lapin_reader r = {at, at + (octets.at ? octets.length : 0), false};
    return r;
}

/* The next octets, so many; none where there are fewer, and the reader is bad. */
static inline lapin_octets lapin_get_octets(lapin_reader *r, uint64_t length) {
    lapin_octets found = {(const char *)r->at, 0};
    r->is_bad |= length > (uint64_t)(r->end - r->at);
    if (!r->is_bad) found.length = (size_t)length, r->at += length;
    return found;
}

static inline uint64_t lapin_get_number(lapin_reader *r, unsigned octets) {
    lapin_octets found = lapin_get_octets(r, octets);
    uint64_t number = 0;
    for (size_t i = 0; i < found.length; i++) number = number << 8 | (unsigned char)found.at[i];
    return number;
}

static inline lapin_octets lapin_get_short(lapin_reader *r) { return lapin_get_octets(r, lapin_get_number(r, 1)); }
static inline lapin_octets lapin_get_long(lapin_reader *r) { return lapin_get_octets(r, lapin_get_number(r, 4)); }

/* A value: the letter of its type, and what that type has. */
typedef struct {
    lapin_octets key;    /* none within an array */
    char type;
    int64_t number;      /* t b B s U u I i l L, and the digits of D; of T and of others as the same bits */
    double real;         /* f d */
    uint8_t places;      /* D */
    lapin_octets octets; /* S x, and of F and A what lies in them: lapin_from reads it */
} lapin_value;

/* The next value of an array: false at its end, or where the reader is bad. */
static inline bool lapin_next_value(lapin_reader *r, lapin_value *value) {
    memset(value, 0, sizeof *value);
    if (r->is_bad || r->at == r->end) return false;
    value->type = (char)lapin_get_number(r, 1);
    unsigned width = lapin_width(value->type);
    if (width) {
        uint64_t bits = lapin_get_number(r, width);
        uint32_t half = (uint32_t)bits;
        float small;
        memcpy(&small, &half, 4);
        if (value->type == 'f') value->real = (double)small;
        if (value->type == 'd') memcpy(&value->real, &bits, 8);
        bool is_signed = strchr("bsUI", value->type) != NULL && bits >> (8 * width - 1);
        value->number = (int64_t)(is_signed ? bits | UINT64_MAX << 8 * width : bits);
    } else if (value->type == 'D') {
        value->places = (uint8_t)lapin_get_number(r, 1), value->number = (int32_t)(uint32_t)lapin_get_number(r, 4);
    } else if (value->type == 'S' || value->type == 'x' || value->type == 'F' || value->type == 'A') {
        value->octets = lapin_get_long(r);
    } else r->is_bad |= value->type != 'V';
    return !r->is_bad;
}

/* The next pair of a table: false at its end, or where the reader is bad. */
static inline bool lapin_next_pair(lapin_reader *r, lapin_value *value) {
    if (r->is_bad || r->at == r->end) return false;
    lapin_octets key = lapin_get_short(r);
    r->is_bad |= r->at == r->end; /* a key has a value */
    bool is_there = lapin_next_value(r, value);
    value->key = key;
    return is_there;
}

static inline bool lapin_equal(lapin_octets one, lapin_octets other) {
    return one.length == other.length && (!one.length || !memcmp(one.at, other.at, one.length));
}

/* The value of a table by its key: false where there is none. */
static inline bool lapin_find_value(lapin_octets table, const char *key, lapin_value *value) {
    lapin_reader r = lapin_from(table);
    while (lapin_next_pair(&r, value))
        if (lapin_equal(value->key, lapin_text(key))) return true;
    return false;
}

/* ---- lists of properties */

/* Which of them there are. */
enum {
    LAPIN_CONTENT_TYPE = 0x8000,
    LAPIN_CONTENT_ENCODING = 0x4000,
    LAPIN_HEADERS = 0x2000,
    LAPIN_DELIVERY_MODE = 0x1000,
    LAPIN_PRIORITY = 0x0800,
    LAPIN_CORRELATION_ID = 0x0400,
    LAPIN_REPLY_TO = 0x0200,
    LAPIN_EXPIRATION = 0x0100,
    LAPIN_MESSAGE_ID = 0x0080,
    LAPIN_TIMESTAMP = 0x0040,
    LAPIN_TYPE = 0x0020,
    LAPIN_USER_ID = 0x0010,
    LAPIN_APP_ID = 0x0008,
    LAPIN_CLUSTER_ID = 0x0004
};

/* Those that flags name. The headers are the pairs of a table. */
typedef struct {
    unsigned flags;
    uint8_t delivery_mode, priority;
    uint64_t timestamp;
    lapin_octets headers, content_type, content_encoding, correlation_id, reply_to, expiration, message_id, type, user_id, app_id, cluster_id;
} lapin_properties;

/* Those of no property, to be filled in. */
static inline lapin_properties lapin_no_properties(void) {
    lapin_properties none;
    memset(&none, 0, sizeof none);
    return none;
}

/* The short text of a place among the flags, the highest being 0; NULL where that is none. */
static inline lapin_octets *lapin_property_text(lapin_properties *p, unsigned place) {
    lapin_octets *texts[14] = {&p->content_type, &p->content_encoding, NULL, NULL, NULL, &p->correlation_id, &p->reply_to, &p->expiration,
                               &p->message_id, NULL, &p->type, &p->user_id, &p->app_id, &p->cluster_id};
    return place < 14 ? texts[place] : NULL;
}

/* The list of properties: the flags, and what they say is there. */
static inline void lapin_put_properties(lapin_writer *w, const lapin_properties *properties) {
    lapin_properties p = *properties;
    w->is_bad |= (p.flags & ~0xfffcu) != 0;
    lapin_put_number(w, p.flags, 2);
    for (unsigned place = 0; place < 14; place++) {
        unsigned flag = 0x8000u >> place;
        lapin_octets *text = lapin_property_text(&p, place);
        if (!(p.flags & flag)) continue;
        if (text) lapin_put_short(w, *text);
        else if (flag == LAPIN_HEADERS) w->is_bad |= !p.headers.at && p.headers.length, lapin_put_long(w, p.headers);
        else if (flag == LAPIN_TIMESTAMP) lapin_put_number(w, p.timestamp, 8);
        else lapin_put_number(w, flag == LAPIN_PRIORITY ? p.priority : p.delivery_mode, 1);
    }
}

/* The list of properties, written into a room; nowhere where it has no place there. */
static inline lapin_octets lapin_listed(const lapin_properties *properties, void *room, size_t size) {
    lapin_writer w = lapin_into(room, size);
    lapin_put_properties(&w, properties);
    return lapin_written(&w);
}

/* The properties of a list. False where it is none: those that stood in front of the fault are there. */
static inline bool lapin_read_properties(lapin_octets list, lapin_properties *p) {
    lapin_reader r = lapin_from(list);
    memset(p, 0, sizeof *p);
    unsigned flags = (unsigned)lapin_get_number(&r, 2);
    r.is_bad |= (flags & 3) != 0;
    for (unsigned place = 0; place < 14 && !r.is_bad; place++) {
        unsigned flag = 0x8000u >> place;
        lapin_octets *text = lapin_property_text(p, place);
        if (!(flags & flag)) continue;
        if (text) *text = lapin_get_short(&r);
        else if (flag == LAPIN_HEADERS) p->headers = lapin_get_long(&r);
        else if (flag == LAPIN_TIMESTAMP) p->timestamp = lapin_get_number(&r, 8);
        else if (flag == LAPIN_PRIORITY) p->priority = (uint8_t)lapin_get_number(&r, 1);
        else p->delivery_mode = (uint8_t)lapin_get_number(&r, 1);
        if (!r.is_bad) p->flags |= flag;
    }
    return !r.is_bad && r.at == r.end;
}

#endif
