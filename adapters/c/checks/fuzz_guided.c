/* A guided fuzz: libFuzzer over the library, which counts its branches. An input is a program of operations over one session: bytes of the broker,
 * frames whose length is right, calls, publishes, settlements, polls. It is run twice, the broker's bytes whole and octet by octet, and both must
 * leave the same record. What leaves is whole frames, an answer is given in its room alone, each status is one that its call may answer. */
#include <stdio.h>
#include <stdlib.h>
#include <string.h>

#include "../lapin.h"

typedef struct { const uint8_t *at, *end; } input;
typedef struct { uint64_t sum; bool is_bad, in_pieces; lapin_handle h; size_t frame_max; } run;

static unsigned octet(input *in) { return in->at < in->end ? *in->at++ : 0; }
static unsigned two(input *in) { unsigned high = octet(in); return high << 8 | octet(in); }
static size_t piece(const input *in, size_t wanted) { return wanted < (size_t)(in->end - in->at) ? wanted : (size_t)(in->end - in->at); }

static void must(bool is_good, const char *what) {
    if (!is_good) fprintf(stderr, "%s\n", what), abort();
}

static void mix(run *r, const void *bytes, size_t length) {
    for (const uint8_t *at = (const uint8_t *)bytes; length--; at++) r->sum = (r->sum ^ *at) * 1099511628211u;
}
static void mix_number(run *r, uint64_t number) { mix(r, &number, sizeof number); }

static void answer(run *r) {
    size_t length = lapin_answer_length(&r->h);
    char *room = (char *)malloc(length + 1);
    must(!length || !lapin_answer(&r->h, room, length - 1), "an answer in less room");
    must(lapin_answer(&r->h, room, length) == length, "an answer");
    mix(r, room, length), free(room);
}

static void why(run *r) {
    lapin_refusal refusal;
    must(lapin_why(&r->h, &refusal) == LAPIN_DONE && refusal.kind >= LAPIN_WHY_NO_MEMORY && refusal.kind <= LAPIN_WHY_OUTSTANDING, "a refusal");
    mix_number(r, refusal.kind), mix_number(r, refusal.code), mix_number(r, refusal.tag);
}

static void receive(run *r, const uint8_t *bytes, size_t length) {
    size_t step = r->in_pieces && length ? 1 : length, at = 0;
    if (r->is_bad) return;
    do {
        uint8_t *copy = (uint8_t *)malloc(step + 1); /* of its own, so that no octet behind it is read unseen */
        if (step) memcpy(copy, bytes + at, step);
        uint32_t status = lapin_receive(&r->h, copy, step);
        free(copy);
        for (int turns = 0; status == LAPIN_REFUSED; turns++) {
            mix(r, "R", 1), why(r), must(turns < 100000, "refusals without end");
            status = lapin_receive(&r->h, "", 0);
        }
        must(status == LAPIN_DONE || status == LAPIN_MALFORMED || status == LAPIN_TOO_LONG || status == LAPIN_ENDED, "a status of receive");
        if (status != LAPIN_DONE) {
            mix_number(r, status), r->is_bad = true;
            must(lapin_receive(&r->h, "", 0) == status, "what is no frame became one");
        }
        at += step;
    } while (!r->is_bad && at < length);
}

static void call(run *r, const void *method, size_t length, unsigned channel) {
    uint64_t ticket = 0;
    uint32_t status = lapin_call(&r->h, (uint16_t)channel, method, length, &ticket);
    mix_number(r, status), mix_number(r, ticket);
    if (status == LAPIN_REFUSED) why(r);
}

/* calls by their channels and the octets of their methods */
static const struct { unsigned channel; const char *method; size_t length; } METHODS[] = {
#define METHOD(channel, octets) {channel, octets, sizeof octets - 1}
    METHOD(1, "\0\x14\0\x0a\0"), METHOD(2, "\0\x14\0\x0a\0"), METHOD(1, "\0\x55\0\x0a\0"), METHOD(1, "\0\x55\0\x0a\1"),
    METHOD(1, "\0\x3c\0\x14\0\0\1q\1t\0\0\0\0\0"), METHOD(1, "\0\x3c\0\x14\0\0\1q\1t\x0a\0\0\0\0"), METHOD(1, "\0\x3c\0\x14\0\0\1q\0\0\0\0\0\0"),
    METHOD(1, "\0\x3c\0\x46\0\0\1q\0"), METHOD(1, "\0\x3c\0\x1e\1t\0"), METHOD(1, "\0\x3c\0\x1e\1t\1"),
    METHOD(1, "\0\x14\0\x28\0\xc8\1b\0\0\0\0"), METHOD(0, "\0\x0a\0\x32\0\xc8\1b\0\0\0\0"), METHOD(1, "\0\x3c\0\x0a\0\0\0\0\0\3\0"),
    METHOD(1, "\0\x3c\0\x6e\1"), METHOD(1, "\0\x3c\0\x64\1"), METHOD(1, "\0\x32\0\x0a\0\0\1q\0\0\0\0\0"),
    METHOD(1, "\0\x32\0\x14\0\0\1q\1e\1k\0\0\0\0\0"), METHOD(1, "\0\x32\0\x28\0\0\1q\0"), METHOD(1, "\0\x32\0\x1e\0\0\1q\0"),
    METHOD(1, "\0\x28\0\x0a\0\0\1e\6direct\0\0\0\0\0"), METHOD(1, "\0\x5a\0\x0a"), METHOD(1, "\0\x5a\0\x14"),
    METHOD(1, "\0\x14\0\x14\0"), METHOD(1, "\0\x14\0\x14\1"), METHOD(1, "\0\x3c\0\x50\0\0\0\0\0\0\0\0\1"),
    METHOD(1, "\0\x3c\0\x50\0\0\0\0\0\0\0\1\0"), METHOD(1, "\0\x3c\0\x78\0\0\0\0\0\0\0\0\3"), METHOD(2, "\0\x55\0\x0a\0"),
    METHOD(2, "\0\x3c\0\x14\0\0\1q\1t\0\0\0\0\0"), METHOD(65535, "\0\x14\0\x0a\0"), METHOD(2, "\0\x14\0\x28\0\xc8\1b\0\0\0\0")};
enum { CALLS = sizeof METHODS / sizeof *METHODS };

static void make(run *r, unsigned place) { call(r, METHODS[place].method, METHODS[place].length, METHODS[place].channel); }

/* what came back, at each place there is and behind the last one */
static void returns(run *r, uint64_t count) {
    lapin_return found;
    for (size_t place = 0; place <= count; place++) {
        uint32_t status = lapin_return_at(&r->h, place, &found);
        mix_number(r, status);
        if (status) continue;
        size_t length = found.message.exchange + found.message.routing_key + found.message.properties + found.message.body + found.text;
        must(lapin_answer_length(&r->h) == length, "the parts of a message that came back"), mix_number(r, found.code), answer(r);
    }
}

static void confirmed(run *r, unsigned confirm) {
    uint64_t outcome = 0;
    uint32_t status = lapin_confirmed(&r->h, confirm, &outcome);
    mix_number(r, status), mix_number(r, outcome);
    if (status == LAPIN_REFUSED || outcome == LAPIN_ERROR) why(r);
    if (status == LAPIN_DONE) returns(r, 1);
}

/* calls that are no method */
static void other(run *r, unsigned which) {
    uint64_t number = 0;
    lapin_states states;
    switch (which) {
    case 0: mix_number(r, lapin_lost(&r->h)); break;
    case 1: case 2:
        mix_number(r, which = lapin_unclaimed(&r->h, (uint16_t)which, &number)), mix_number(r, number);
        if (which == LAPIN_DONE) returns(r, number);
        break;
    case 3: mix_number(r, lapin_limit(&r->h, 1, 2, &number)), mix_number(r, number); break;
    default: mix_number(r, lapin_state(&r->h, which & 1, &states)), mix_number(r, states.channel), mix_number(r, states.connection);
    }
}

static void frame(run *r, input *in, bool is_longer) {
    unsigned kind = octet(in), channel = octet(in), length = octet(in);
    if (is_longer) length |= octet(in) << 8;
    length = (unsigned)piece(in, length < 8000 ? length : 8000);
    uint8_t bytes[8200] = {0, 0, 0, 0, 0, (uint8_t)(length >> 8), (uint8_t)length};
    bytes[0] = (uint8_t)(kind > 12 ? kind : 1 + kind % 3);
    bytes[1] = channel > 250 ? 255 : 0, bytes[2] = (uint8_t)(channel > 250 ? 255 : channel % 4);
    memcpy(bytes + 7, in->at, length), bytes[7 + length] = 0xce, in->at += length;
    receive(r, bytes, length + 8);
}

static void publish(run *r, input *in) {
    static uint8_t body[9000];
    uint64_t confirm = 0;
    unsigned length = two(in) % 9000;
    size_t list = length & 4 ? piece(in, octet(in)) : 2;
    const void *properties = length & 4 ? (const void *)in->at : "\0\0";
    uint16_t channel = (uint16_t)(1 + (length & 1));
    uint32_t status = lapin_publish(&r->h, channel, "", 0, "q", 1, length & 2, length & 8, body, length, properties, list, &confirm);
    if (length & 4) in->at += list;
    mix_number(r, status), mix_number(r, confirm);
}

static void deliver(run *r, input *in) {
    lapin_message m;
    uint32_t status = lapin_delivery(&r->h, octet(in) % 4, &m);
    mix_number(r, status);
    if (status) return;
    must(lapin_answer_length(&r->h) == m.exchange + m.routing_key + m.properties + m.body, "the parts of a message");
    answer(r), mix_number(r, lapin_ack(&r->h, m.acker, octet(in) & 1));
}

static void leave(run *r, input *in) {
    unsigned how = octet(in);
    mix_number(r, lapin_send(&r->h, how & 1, how & 2 ? 1 : 1 << 16));
    size_t length = lapin_leaving_length(&r->h), size;
    uint8_t *room = (uint8_t *)malloc(length + 1);
    must(!length || !lapin_leaving(&r->h, room, length - 1), "bytes in less room");
    must(lapin_leaving(&r->h, room, length) == length, "bytes that leave"), mix(r, room, length);
    for (size_t at = 0; at < length; at += size) {
        must(length - at >= 8, "a part of a frame leaves"), size = lapin_frame_length(room + at);
        must(size <= r->frame_max && size <= length - at && room[at + size - 1] == 0xce, "no frame leaves");
    }
    free(room);
}

static void reply(run *r, unsigned ticket) {
    lapin_fields f;
    uint32_t status = lapin_reply(&r->h, ticket, &f);
    mix_number(r, status);
    if (status == LAPIN_REFUSED) why(r);
    if (status) return;
    size_t length = f.message.exchange + f.message.routing_key + f.message.properties + f.message.body;
    must(f.kind <= LAPIN_REPLY_YES && (f.kind != LAPIN_REPLY_MESSAGE || lapin_answer_length(&r->h) == length), "a reply");
    mix_number(r, f.kind), mix_number(r, f.number), mix_number(r, f.messages), answer(r);
}

static void operate(run *r, input *in) {
    unsigned op = octet(in) % 16, a;
    size_t length;
    switch (op) {
    case 0: case 1: length = piece(in, two(in) & 4095), receive(r, in->at, length), in->at += length; break;
    case 2: case 3: case 4: case 5: frame(r, in, op == 5); break;
    case 6: case 7: a = octet(in) % (CALLS + 6), a < CALLS ? make(r, a) : other(r, a - CALLS); break;
    case 8: publish(r, in); break;
    case 9: a = lapin_outcome(&r->h, octet(in)), mix_number(r, a); if (a == LAPIN_ERROR) why(r); break;
    case 10: deliver(r, in); break;
    case 11: leave(r, in); break;
    case 12: mix_number(r, lapin_forget(&r->h, octet(in))); break;
    case 13: a = octet(in), mix_number(r, a & 1 ? lapin_nack(&r->h, a >> 2, a & 2, true) : lapin_reject(&r->h, a >> 2, a & 2)); break;
    case 14:
        a = octet(in), length = piece(in, a >> 1);
        call(r, in->at, length, a % 3), in->at += length;
        break;
    default:
        a = octet(in);
        if (a & 1) reply(r, a >> 1);
        else confirmed(r, a >> 1);
    }
}

static uint64_t whole_run(const uint8_t *data, size_t size, bool in_pieces) {
    input in = {data, data + size};
    run r = {14695981039346656037u, false, in_pieces, {NULL, false}, 4096};
    static uint8_t room[1 << 16];
    unsigned set = octet(&in);
    if (set & 1) r.frame_max = 131072;
    must(!lapin_open(&r.h, (uint32_t)r.frame_max), "open");
    if (set & 2) {
        make(&r, 0), lapin_send(&r.h, true, 1 << 16), lapin_leaving(&r.h, room, sizeof room);
        lapin_receive(&r.h, "\1\0\1\0\0\0\x08\0\x14\0\x0b\0\0\0\0\xce", 16);
        if (set & 4) make(&r, 2);
        if (set & 8) make(&r, 4), lapin_send(&r.h, true, 1 << 16), lapin_leaving(&r.h, room, sizeof room);
        if (set & 8) lapin_receive(&r.h, "\1\0\1\0\0\0\6\0\x3c\0\x15\1t\xce", 14);
    }
    for (int operations = 0; in.at < in.end && operations < 400; operations++) operate(&r, &in);
    mix_number(&r, lapin_is_blocked(&r.h)), lapin_close(&r.h);
    must(lapin_receive(&r.h, "", 0) == LAPIN_CLOSED, "a closed handle");
    return r.sum;
}

static void opening(const uint8_t *at, const uint8_t *end, unsigned set) {
    lapin_opening o = {set & 3, set & 4 ? 4096u : 131072u, 2047, 60, LAPIN_PLAIN};
    uint8_t reply[600];
    for (int turns = 0; turns < 8 && at < end; turns++) {
        size_t length = (size_t)(end - at), written, size = length >= 7 ? lapin_frame_length(at) : 0;
        uint16_t code;
        uint8_t *copy = (uint8_t *)malloc(length);
        memcpy(copy, at, length);
        uint32_t status = lapin_shake(&o, copy, length, "guest", 5, "gu\0st", 5, "/", 1, "", 0, reply, turns & 1 ? 10 : sizeof reply, &written, &code);
        free(copy);
        must(status == LAPIN_DONE || status == LAPIN_PENDING || status == LAPIN_REFUSED || status == LAPIN_TOO_LONG, "a status of shake");
        must(status != LAPIN_DONE || (length >= 8 && size <= length), "shake read more than there is");
        if (status != LAPIN_DONE) return;
        at += size;
    }
}

int LLVMFuzzerTestOneInput(const uint8_t *data, size_t size);
int LLVMFuzzerTestOneInput(const uint8_t *data, size_t size) {
    if (size && data[0] & 0x80) opening(data + 1, data + size, data[0]);
    else must(whole_run(data, size, false) == whole_run(data, size, true), "whole and octet by octet differ");
    return 0;
}
