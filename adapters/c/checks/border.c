/* The border with nothing and with extremes: closed handles, no bytes, numbers that nobody has, limits at their ends, clocks that fell behind. */
#include <stdio.h>
#include <string.h>

#include "../lapin.h"

static int wrong;
static void is(const char *call, uint64_t found, uint64_t right) {
    if (found != right) wrong++, printf("%s is %llu, not %llu\n", call, (unsigned long long)found, (unsigned long long)right);
}
#define IS(call, right) is(#call, (uint64_t)(call), (uint64_t)(right))

static void closed(void) {
    lapin_handle h = {NULL, false};
    uint64_t number = 5;
    lapin_message m;
    lapin_close_reason r = {7, 7, 7};
    lapin_fields f = {77, 77, 77, 77, {0, 0, 0, 0, 0, 0, false}};
    lapin_refusal y = {77, 0, 0, 0, 0, 0, 0, 0};
    lapin_states s = {77, 77};
    lapin_return b = {77, 77, {0, 0, 0, 0, 0, 0, false}};
    lapin_close(&h);
    IS(lapin_receive(&h, NULL, 0), LAPIN_CLOSED), IS(lapin_send(&h, true, 0), LAPIN_CLOSED);
    IS(lapin_publish(&h, 1, NULL, 0, NULL, 0, true, true, NULL, 0, NULL, 0, &number), LAPIN_CLOSED), IS(number, 5);
    IS(lapin_call(&h, 1, NULL, 0, &number), LAPIN_CLOSED), IS(lapin_limit(&h, 1, 1, &number), LAPIN_CLOSED), IS(number, 5);
    IS(lapin_reply(&h, 1, &f), LAPIN_CLOSED), IS(f.kind, 77), IS(lapin_forget_call(&h, 1), LAPIN_CLOSED), IS(lapin_lost(&h), LAPIN_CLOSED);
    IS(lapin_why(&h, &y), LAPIN_CLOSED), IS(y.kind, 77), IS(lapin_state(&h, 1, &s), LAPIN_CLOSED), IS(s.channel, 77);
    IS(lapin_answer(&h, NULL, 0), 0), IS(lapin_leaving(&h, NULL, 0), 0), IS(lapin_leaving_length(&h), 0), IS(lapin_is_blocked(&h), false);
    IS(lapin_confirmed(&h, 1, &number), LAPIN_CLOSED), IS(lapin_unclaimed(&h, 1, &number), LAPIN_CLOSED), IS(number, 5);
    IS(lapin_return_at(&h, 0, &b), LAPIN_CLOSED), IS(b.code, 77);
    IS(lapin_outcome(&h, 1), LAPIN_NONE), IS(lapin_forget(&h, 1), LAPIN_CLOSED), IS(lapin_ack(&h, 1, true), LAPIN_CLOSED);
    IS(lapin_delivery(&h, 1, &m), LAPIN_CLOSED), IS(lapin_last_close(&h, 1, &r), LAPIN_CLOSED), IS(r.code, 7);
    IS(lapin_open(&h, 0), LAPIN_NOT_IN_GRAMMAR), IS(lapin_open(&h, 4095), LAPIN_NOT_IN_GRAMMAR), IS(h.is_open, false);
}

static void nothing(void) {
    lapin_handle h = {NULL, false};
    uint64_t number = 5;
    lapin_message m;
    lapin_fields f;
    lapin_refusal y;
    lapin_states s;
    lapin_close_reason r;
    lapin_return b;
    char room[64];
    IS(lapin_open(&h, UINT32_MAX), LAPIN_DONE), IS(lapin_call(&h, 1, "\0\x14\0\x0a\0", 5, &number), LAPIN_DONE), IS(number, 1);
    IS(lapin_send(&h, true, 9), LAPIN_DONE);
    IS(lapin_leaving(&h, room, lapin_leaving_length(&h) - 1), 0), IS(lapin_leaving(&h, room, sizeof room), 13);
    IS(lapin_receive(&h, "\x01\0\x01\0\0\0\x08\0\x14\0\x0b\0\0\0\0\xce", 16), LAPIN_DONE), IS(lapin_receive(&h, NULL, 0), LAPIN_DONE);
    IS(lapin_why(&h, &y), LAPIN_PENDING), IS(lapin_reply(&h, 0, &f), LAPIN_REFUSED);
    IS(lapin_why(&h, &y), LAPIN_DONE), IS(y.kind, LAPIN_WHY_UNKNOWN);
    IS(lapin_reply(&h, UINT64_MAX, &f), LAPIN_REFUSED), IS(lapin_reply(&h, 1, &f), LAPIN_DONE), IS(f.kind, LAPIN_REPLY_CHANNEL), IS(f.number, 1);
    IS(lapin_reply(&h, 1, &f), LAPIN_REFUSED), IS(lapin_why(&h, &y), LAPIN_DONE), IS(y.kind, LAPIN_WHY_ALREADY_TAKEN);
    IS(lapin_forget_call(&h, 1), LAPIN_GONE), IS(lapin_forget_call(&h, 0), LAPIN_GONE), IS(lapin_forget_call(&h, UINT64_MAX), LAPIN_GONE);
    IS(lapin_call(&h, 1, NULL, 0, &number), LAPIN_NOT_IN_GRAMMAR), IS(lapin_call(&h, 1, "\0\x14\0\x0a", 4, &number), LAPIN_NOT_IN_GRAMMAR);
    IS(lapin_call(&h, 1, "\0\x14\0\x0a\0z", 6, &number), LAPIN_NOT_IN_GRAMMAR), IS(lapin_call(&h, 1, "\0\x14\0\x0a\0", 5, &number), LAPIN_REFUSED);
    IS(lapin_why(&h, &y), LAPIN_DONE), IS(y.kind, LAPIN_WHY_CHANNEL_STATE), IS(y.state, LAPIN_CHANNEL_OPEN), number = 5;
    IS(lapin_state(&h, 65535, &s), LAPIN_DONE), IS(s.connection, LAPIN_CONNECTION_OPEN), IS(s.channel, LAPIN_CHANNEL_CLOSED);
    IS(lapin_publish(&h, 1, NULL, 0, NULL, 0, true, true, NULL, 0, NULL, 0, &number), LAPIN_NOT_IN_GRAMMAR), IS(number, 5);
    IS(lapin_publish(&h, 1, NULL, 0, NULL, 0, true, false, NULL, 0, "\0\0", 2, &number), LAPIN_DONE), IS(number, 1);
    IS(lapin_delivery(&h, 0, &m) == LAPIN_DONE, false), IS(lapin_delivery(&h, UINT64_MAX, &m) == LAPIN_DONE, false);
    IS(lapin_ack(&h, 0, false), LAPIN_GONE), IS(lapin_ack(&h, UINT64_MAX, true), LAPIN_GONE), IS(lapin_last_close(&h, 65535, &r), LAPIN_PENDING);
    IS(lapin_confirmed(&h, 1, &number), LAPIN_PENDING), IS(lapin_confirmed(&h, 0, &number), LAPIN_REFUSED);
    IS(lapin_why(&h, &y), LAPIN_DONE), IS(y.kind, LAPIN_WHY_UNKNOWN), IS(lapin_confirmed(&h, UINT64_MAX, &number), LAPIN_REFUSED), IS(number, 1);
    IS(lapin_return_at(&h, 0, &b), LAPIN_PENDING), IS(lapin_return_at(&h, SIZE_MAX, &b), LAPIN_PENDING);
    IS(lapin_unclaimed(&h, 65535, &number), LAPIN_DONE), IS(number, 0), IS(lapin_return_at(&h, 0, &b), LAPIN_PENDING);
    IS(lapin_outcome(&h, 0), LAPIN_NONE), IS(lapin_outcome(&h, UINT64_MAX), LAPIN_NONE), IS(lapin_forget(&h, 0) == LAPIN_DONE, false);
    IS(lapin_lost(&h), LAPIN_DONE), IS(lapin_lost(&h), LAPIN_DONE), IS(lapin_state(&h, 0, &s), LAPIN_DONE), IS(s.connection, LAPIN_CONNECTION_LOST);
    lapin_close(&h), lapin_close(&h);
}

static uint32_t tune(lapin_opening *o, const char *limits, uint16_t *code) {
    char frame[21] = "\1\0\0\0\0\0\x0c\0\x0a\0\x1e", out[64];
    size_t written = 0;
    memcpy(frame + 11, limits, 8), frame[19] = '\xce';
    return lapin_shake(o, frame, 20, "g", 1, "g", 1, "/", 1, "", 0, out, sizeof out, &written, code);
}

int main(void) {
    lapin_opening odd = {UINT32_MAX, 0, 0, 0, 0}, all = {1, 131072, 2047, 60, LAPIN_PLAIN}, less = {1, 131072, 2047, 60, LAPIN_PLAIN};
    lapin_clock fell = {UINT64_MAX, 0, 65535}, far = {0, 0, 65535}, before = {5000, 5000, 1};
    uint64_t wait;
    uint16_t code = 0;
    closed(), nothing();
    IS(tune(&odd, "\x07\xff\0\2\0\0\0\x3c", &code) == LAPIN_DONE, false);
    IS(tune(&all, "\0\0\0\0\0\0\xff\xff", &code), LAPIN_DONE), IS(all.frame_max, 131072), IS(all.channel_max, 2047), IS(all.heartbeat, 60);
    IS(tune(&less, "\0\0\0\0\x0f\xff\xff\xff", &code), LAPIN_REFUSED);
    IS(lapin_beat(&fell, 0, &wait), LAPIN_WAIT), IS(lapin_beat(&far, UINT64_MAX, &wait), LAPIN_SILENT);
    IS(lapin_beat(&before, 4000, &wait), LAPIN_WAIT);
    return wrong > 0;
}
