/* Random and mutated byte strings into the library: fuzz COUNT [SEED]. Each call answers one of its statuses, a client whose bytes are none
 * stays so, and memory stays bounded. Frames of a broker are built from the standard's layouts, and then turned: bytes changed, cut, doubled,
 * swapped between frames, and cut into pieces. */
#include <malloc.h>
#include <stdio.h>
#include <stdlib.h>
#include <string.h>
#include <sys/resource.h>
#include "../lapin.h"

static uint64_t state;
static uint64_t draw(uint64_t below) {
    state ^= state << 13, state ^= state >> 7, state ^= state << 17;
    return below ? state % below : state;
}

static unsigned char *put(unsigned char *at, const void *bytes, size_t length) { return memcpy(at, bytes, length), at + length; }

/* A frame of a kind on a channel. */
static unsigned char *frame(unsigned char *at, int kind, int channel, const void *payload, size_t length) {
    unsigned char head[7] = {(unsigned char)kind, 0, (unsigned char)channel, 0, 0, (unsigned char)(length >> 8), (unsigned char)length};
    return put(put(put(at, head, 7), payload, length), "\xce", 1);
}

/* One of the frames that a broker sends. */
static unsigned char *some(unsigned char *at) {
    static const struct { const char *bytes; size_t length; } METHODS[] = {
#define M(text) {text, sizeof text - 1}
        M("\0\x14\0\x0b\0\0\0\0"), M("\0\x55\0\x0b"), M("\0\x32\0\x0b\x01q\0\0\0\0\0\0\0\0"), M("\0\x3c\0\x15\x01t"), M("\0\x3c\0\x3c\x01t\0\0\0\0\0\0\0\x01\0\0\x01q"),
        M("\0\x3c\0\x50\0\0\0\0\0\0\0\x01\x01"), M("\0\x3c\0\x78\0\0\0\0\0\0\0\x02\0"), M("\0\x3c\0\x32\x01\x38\x08NO_ROUTE\0\x01q"), M("\0\x14\0\x28\x01\x94\x02no\0\0\0\0"),
        M("\0\x14\0\x29"), M("\0\x0a\0\x32\x01\x40\x02no\0\0\0\0"), M("\0\x0a\0\x33"), M("\0\x0a\0\x3c\x03low"), M("\0\x0a\0\x3d"), M("\0\x3c\0\x1e\x01t\0"), M("\0\x14\0\x14\0"),
        M("\0\x3c\0\x47\0\0\0\0\0\0\0\x07\0\0\x01q\0\0\0\0"), M("\0\x3c\0\x48\0"), M("\0\x3c\0\x0b"), M("\0\x28\0\x0b"), M("\0\x3c\0\x1f\x01t"),
    };
    static const unsigned char TABLE[] = "\0\x3c\0\0\0\0\0\0\0\0\0\x05\x20\0\0\0\0\x1a\x01kS\0\0\0\x03val\x01nI\0\0\0\x07\x01tA\0\0\0\x02Vt\x01";
    uint64_t kind = draw(10), channel = draw(8) ? 1 : draw(3);
    if (kind < 6) {
        uint64_t which = draw(sizeof METHODS / sizeof *METHODS);
        return frame(at, 1, which >= 10 && which <= 13 ? 0 : (int)channel, METHODS[which].bytes, METHODS[which].length);
    }
    if (kind == 6) return frame(at, 2, (int)channel, "\0\x3c\0\0\0\0\0\0\0\0\0\x05\0\0", 14);
    if (kind == 7) return frame(at, 2, (int)channel, TABLE, sizeof TABLE - 1);
    if (kind == 8) return frame(at, 3, (int)channel, "hello", draw(6));
    return frame(at, 8, 0, "", 0);
}

/* A byte string: frames, some of them turned, or bytes at random. */
static size_t string(unsigned char *bytes) {
    unsigned char *at = bytes;
    if (!draw(8)) {
        for (size_t length = draw(200); length--;) *at++ = (unsigned char)draw(256);
        return (size_t)(at - bytes);
    }
    for (uint64_t frames = 1 + draw(6); frames--;) at = some(at);
    size_t length = (size_t)(at - bytes);
    for (uint64_t turns = draw(4); turns-- && length;) switch (draw(5)) {
        case 0: bytes[draw(length)] = (unsigned char)draw(256); break;
        case 1: bytes[draw(length)] ^= (unsigned char)(1 << draw(8)); break;
        case 2: length = draw(length + 1); break;
        case 3: { size_t from = draw(length), more = draw(length - from + 1); memmove(bytes + length, bytes + from, more), length += more; break; }
        case 4: { size_t from = draw(length), less = draw(length - from + 1); memmove(bytes + from, bytes + from + less, length - from - less), length -= less; break; }
        }
    return length;
}

/* the call of a method, which is a literal */
#define CALL(h, method) lapin_call(&(h), 1, method, sizeof method - 1, &ticket)

int main(int count, char **words) {
    if (count < 2) return 2;
    uint64_t strings = strtoull(words[1], 0, 10), seen[10] = {0}, opened = 0, shaken[10] = {0};
    state = count > 2 ? strtoull(words[2], 0, 10) | 1 : 88172645463325252ull;
    static unsigned char bytes[1 << 14], room[1 << 16];
    lapin_handle h = {0, false};
    size_t most = 0;
    bool bad = true;
    for (uint64_t turn = 0; turn < strings; turn++) {
        if (bad || !draw(40)) {
            lapin_open(&h, 4096), opened++;
            uint64_t confirm, ticket;
            CALL(h, "\0\x14\0\x0a\0"), lapin_send(&h, true, 1 << 16), lapin_leaving(&h, room, sizeof room);
            lapin_receive(&h, "\x01\0\x01\0\0\0\x08\0\x14\0\x0b\0\0\0\0\xce", 16);
            CALL(h, "\0\x55\0\x0a\0"), CALL(h, "\0\x3c\0\x14\0\0\1q\1t\0\0\0\0\0"), CALL(h, "\0\x3c\0\x46\0\0\1q\0");
            lapin_call(&h, 1, bytes, draw(64), &ticket);
            for (uint64_t n = draw(4); n--;) lapin_publish(&h, 1, "", 0, "q", 1, true, false, bytes, draw(6000), bytes, 2 + draw(99), &confirm);
            if (draw(2)) lapin_send(&h, true, 1 << 16), lapin_leaving(&h, room, sizeof room);
            bad = false;
        }
        size_t length = string(bytes);
        for (size_t at = 0, more; at < length && !bad; at += more) {
            more = draw(3) ? length - at : 1 + draw(length - at);
            uint32_t status = lapin_receive(&h, bytes + at, more);
            if (status > 9 || status == LAPIN_NOT_IN_GRAMMAR || status == LAPIN_CLOSED || status >= LAPIN_PENDING) return printf("a status of receive: %u\n", status), 1;
            seen[status]++;
            bad = status >= LAPIN_NO_MEMORY;
            if (status == LAPIN_MALFORMED && lapin_receive(&h, "", 0) != LAPIN_MALFORMED) return printf("what is no frame became one\n"), 1;
            if (!draw(4)) lapin_send(&h, true, 1 << 16);
            lapin_leaving(&h, room, sizeof room);
        }
        lapin_message m;
        lapin_fields f;
        if (!draw(3)) lapin_outcome(&h, 1 + draw(4));
        uint64_t outcome;
        lapin_return back;
        if (!draw(3) && lapin_confirmed(&h, 1 + draw(4), &outcome) == LAPIN_DONE && lapin_return_at(&h, 0, &back) == LAPIN_DONE) {
            m = back.message;
            if (lapin_answer_length(&h) != m.exchange + m.routing_key + m.properties + m.body + back.text) return printf("the parts of what came back\n"), 1;
        }
        if (!draw(3) && lapin_reply(&h, 1 + draw(6), &f) == LAPIN_DONE && f.kind == LAPIN_REPLY_MESSAGE) {
            m = f.message;
            if (lapin_answer_length(&h) != m.exchange + m.routing_key + m.properties + m.body) return printf("the parts of a reply\n"), 1;
        }
        if (!draw(3) && lapin_delivery(&h, 1, &m) == LAPIN_DONE) {
            if (lapin_answer(&h, room, sizeof room) != m.exchange + m.routing_key + m.properties + m.body) return printf("the parts of a message\n"), 1;
            lapin_ack(&h, m.acker, false);
        }
        lapin_opening o = {(uint32_t)draw(5), 131072, 2047, 60, LAPIN_PLAIN};
        size_t written;
        uint16_t code;
        shaken[lapin_shake(&o, bytes, length, "guest", 5, "guest", 5, "/", 1, "", 0, room, sizeof room, &written, &code)]++;
        if (!(turn % 64)) {
            size_t held = mallinfo2().uordblks;
            most = held > most ? held : most;
        }
    }
    lapin_close(&h);
    struct rusage used;
    getrusage(RUSAGE_SELF, &used);
    printf("%llu strings, %llu clients; receive: done %llu, refused %llu, malformed %llu, too long %llu, other %llu; shake: done %llu, refused %llu, pending %llu; most memory held %zu bytes, after the last close %zu\n",
           (unsigned long long)strings, (unsigned long long)opened, (unsigned long long)seen[0], (unsigned long long)seen[1], (unsigned long long)seen[5], (unsigned long long)seen[6],
           (unsigned long long)(seen[2] + seen[3] + seen[4]), (unsigned long long)shaken[0], (unsigned long long)shaken[1], (unsigned long long)shaken[8], most, mallinfo2().uordblks);
    return 0;
}
