/* held MODE TURNS: what the library holds for a way of use, counted from the heap.
 *
 * It makes half of the turns, looks at the heap, makes the other half, looks again, and prints the bytes that a turn of the second half
 * left behind. Everything that comes from the broker is written here; there is no socket. bench/held.py builds and runs it.
 */
#include <malloc.h>
#include <stdio.h>
#include <stdlib.h>
#include <string.h>

#include "lapin.h"

static lapin_handle session;
static unsigned char leaving[1 << 17];
static unsigned char coming[1 << 10];
static size_t came;
static uint64_t ticket; /* that the last call gave */

static void die(const char *what, unsigned status) {
    fprintf(stderr, "held: %s: status %u\n", what, status);
    exit(2);
}

/* ---- this side */

/* Makes the call of a method. */
static void make(int channel, const char *octets, size_t length) {
    uint32_t status = lapin_call(&session, (uint16_t)channel, octets, length, &ticket);
    if (status != LAPIN_DONE) die("call", status);
}
#define MAKE(channel, octets) make(channel, octets, sizeof octets - 1)

static void leave(void) {
    uint32_t status = lapin_send(&session, true, 1 << 16);
    if (status != LAPIN_DONE) die("send", status);
    lapin_leaving(&session, leaving, sizeof leaving);
}

static uint64_t publish_on(uint16_t channel, bool mandatory) {
    uint64_t confirm;
    uint32_t status = lapin_publish(&session, channel, "", 0, "q", 1, mandatory, false, "hello", 5, "\0", 2, &confirm);
    if (status != LAPIN_DONE) die("publish", status);
    leave();
    return confirm;
}
static uint64_t publish(bool mandatory) { return publish_on(1, mandatory); }

/* The reply of the last call, which is there. */
static void ask(void) {
    lapin_fields fields;
    uint32_t status = lapin_reply(&session, ticket, &fields);
    if (status != LAPIN_DONE) die("reply", status);
}

/* ---- the broker's side */

static void octets(const void *bytes, size_t length) { memcpy(coming + came, bytes, length), came += length; }
static void number(uint64_t value, int length) {
    while (length--) coming[came++] = (unsigned char)(value >> 8 * length);
}
static void text(const char *value) { number(strlen(value), 1), octets(value, strlen(value)); }

static size_t frame(int kind, int channel) {
    number((uint64_t)kind, 1), number((uint64_t)channel, 2), number(0, 4);
    return came;
}
static void end(size_t head) {
    size_t all = came;
    came = head - 4, number(all - head, 4), came = all;
    number(0xce, 1);
}
static size_t method(int channel, int class_id, int method_id) {
    size_t head = frame(1, channel);
    number((uint64_t)class_id, 2), number((uint64_t)method_id, 2);
    return head;
}
static void content(const char *body) {
    size_t head = frame(2, 1);
    number(60, 2), number(0, 2), number(strlen(body), 8), number(0, 2), end(head);
    head = frame(3, 1), octets(body, strlen(body)), end(head);
}
static void arrive(void) {
    uint32_t status = lapin_receive(&session, coming, came);
    if (status != LAPIN_DONE) die("receive", status);
    came = 0;
}
static void settle_on(int channel, uint64_t tag, bool ack) {
    size_t head = method(channel, 60, ack ? 80 : 120);
    number(tag, 8), number(0, 1), end(head), arrive();
}
static void settle(uint64_t tag, bool ack) { settle_on(1, tag, ack); }
static void reply(int channel, int class_id, int method_id, const char *name, int zeros) {
    size_t head = method(channel, class_id, method_id);
    if (name) text(name);
    number(0, zeros), end(head), arrive();
}
static void returned(void) {
    size_t head = method(1, 60, 50);
    number(312, 2), text("NO_ROUTE"), text(""), text("q"), end(head), content("hello"), arrive();
}
static void delivery(uint64_t tag) {
    size_t head = method(1, 60, 60);
    text("t"), number(tag, 8), number(0, 1), text(""), text("q"), end(head), content("hello"), arrive();
}
static uint64_t handed(void) {
    lapin_message message;
    uint32_t status = lapin_delivery(&session, 1, &message);
    if (status != LAPIN_DONE) die("delivery", status);
    return message.acker;
}
static void outcome(uint64_t confirm, uint32_t wanted) {
    uint32_t told = lapin_outcome(&session, confirm);
    if (told != wanted) die("outcome", told);
}

static void open_channel(int channel) {
    MAKE(channel, "\0\x14\0\x0a\0"), leave(), reply(channel, 20, 11, NULL, 4), ask();
}
static void select_confirms(int channel) {
    MAKE(channel, "\0\x55\0\x0a\0"), leave(), reply(channel, 85, 11, NULL, 0), ask();
}

/* ---- the ways of use: one turn each, the number of the turn from 1 */

static void publish_asked(uint64_t turn) { uint64_t confirm = publish(false); settle(turn, true), outcome(confirm, LAPIN_ACK); }
static void publish_nacked(uint64_t turn) { uint64_t confirm = publish(false); settle(turn, false), outcome(confirm, LAPIN_NACK); }
static void publish_never_asked(uint64_t turn) { publish(false), settle(turn, true); }
static void publish_in_turn(uint64_t turn, uint64_t channels) {
    int channel = (int)((turn - 1) % channels + 1);
    if (turn > 1 && turn <= channels) open_channel(channel), select_confirms(channel);
    publish_on((uint16_t)channel, false), settle_on(channel, (turn - 1) / channels + 1, true);
}
static void publish_on_two_channels(uint64_t turn) { publish_in_turn(turn, 2); }
static void publish_on_many_channels(uint64_t turn) { publish_in_turn(turn, 100); }
static void publish_unconfirmed(uint64_t turn) { (void)turn, publish(false); }
static void publish_unconfirmed_forgotten(uint64_t turn) { (void)turn, lapin_forget(&session, publish(false)); }
static void publish_forgotten_before(uint64_t turn) { lapin_forget(&session, publish(false)), settle(turn, true); }
static void publish_forgotten_after(uint64_t turn) { uint64_t confirm = publish(false); settle(turn, true), lapin_forget(&session, confirm); }
static void publish_waited(uint64_t turn) {
    publish_forgotten_before(turn);
    uint64_t count;
    if (turn % 1000 == 0 && lapin_unclaimed(&session, 1, &count) != LAPIN_DONE) die("unclaimed", 1);
}
static void publish_behind_the_oldest(uint64_t turn) {
    uint64_t confirm = publish(false);
    if (turn > 1) settle(turn, true), outcome(confirm, LAPIN_ACK);
}
static void publish_returned(uint64_t turn) {
    uint64_t confirm = publish(true), told;
    lapin_return found;
    returned(), settle(turn, true);
    if (lapin_confirmed(&session, confirm, &told) != LAPIN_DONE || lapin_return_at(&session, 0, &found) != LAPIN_DONE) die("confirmed", 1);
}
static void delivery_acked(uint64_t turn) {
    delivery(turn);
    if (lapin_ack(&session, handed(), false) != LAPIN_DONE) die("ack", 1);
    leave();
}
static void delivery_unsettled(uint64_t turn) { delivery(turn), handed(); }
static void delivery_behind_the_oldest(uint64_t turn) {
    if (turn == 1) delivery_unsettled(turn);
    else delivery_acked(turn);
}
static void got(uint64_t turn, bool no_ack) {
    if (no_ack) MAKE(1, "\0\x3c\0\x46\0\0\1q\1");
    else MAKE(1, "\0\x3c\0\x46\0\0\1q\0");
    leave();
    size_t head = method(1, 60, 71);
    number(turn, 8), number(0, 1), text(""), text("q"), number(0, 4), end(head), content("hello"), arrive(), ask();
}
static void get_without_ack(uint64_t turn) { got(turn, true); }
static void get_acked(uint64_t turn) {
    got(turn, false);
    if (lapin_ack(&session, turn, false) != LAPIN_DONE) die("ack", 1);
    leave();
}
static void call(uint64_t turn) {
    (void)turn;
    MAKE(1, "\0\x32\0\x0a\0\0\1q\0\0\0\0\0"), leave(), reply(1, 50, 11, "q", 8), ask();
}
static void channel(uint64_t turn) {
    (void)turn;
    MAKE(2, "\0\x14\0\x0a\0"), leave(), reply(2, 20, 11, NULL, 4), ask();
    MAKE(2, "\0\x14\0\x28\0\xc8\0\0\0\0\0"), leave(), reply(2, 20, 41, NULL, 0), ask();
}
static void consume(void) { MAKE(1, "\0\x3c\0\x14\0\0\1q\1u\0\0\0\0\0"), leave(), reply(1, 60, 21, "u", 0), ask(); }
static void consumer_cancelled(uint64_t turn) {
    lapin_message message;
    consume(), MAKE(1, "\0\x3c\0\x1e\1u\0"), leave(), reply(1, 60, 31, "u", 0), ask();
    if (lapin_delivery(&session, turn + 1, &message) != LAPIN_GONE) die("a consumer's end", 1);
}

static const struct {
    const char *name;
    void (*turn)(uint64_t);
    const char *mode; /* what channel 1 was asked for before: "confirm", "plain", "noack" */
} WAYS[] = {
    {"publish_asked", publish_asked, "confirm"},
    {"publish_nacked", publish_nacked, "confirm"},
    {"publish_never_asked", publish_never_asked, "confirm"},
    {"publish_on_two_channels", publish_on_two_channels, "confirm"},
    {"publish_on_many_channels", publish_on_many_channels, "confirm"},
    {"publish_unconfirmed", publish_unconfirmed, "plain"},
    {"publish_unconfirmed_forgotten", publish_unconfirmed_forgotten, "plain"},
    {"publish_forgotten_before", publish_forgotten_before, "confirm"},
    {"publish_forgotten_after", publish_forgotten_after, "confirm"},
    {"publish_waited", publish_waited, "confirm"},
    {"publish_behind_the_oldest", publish_behind_the_oldest, "confirm"},
    {"publish_returned", publish_returned, "confirm"},
    {"delivery_acked", delivery_acked, "confirm"},
    {"delivery_without_ack", delivery_unsettled, "noack"},
    {"delivery_unsettled", delivery_unsettled, "confirm"},
    {"delivery_behind_the_oldest", delivery_behind_the_oldest, "confirm"},
    {"get_without_ack", get_without_ack, "confirm"},
    {"get_acked", get_acked, "confirm"},
    {"call", call, "confirm"},
    {"channel", channel, "confirm"},
    {"consumer_cancelled", consumer_cancelled, "confirm"},
};

static void begin(const char *mode) {
    if (lapin_open(&session, 131072) != LAPIN_DONE) die("open", 1);
    open_channel(1);
    if (strcmp(mode, "plain") == 0) MAKE(1, "\0\x5a\0\x0a"), leave(), reply(1, 90, 11, NULL, 0), ask();
    else select_confirms(1);
    if (strcmp(mode, "noack") == 0) MAKE(1, "\0\x3c\0\x14\0\0\1q\1t\2\0\0\0\0");
    else MAKE(1, "\0\x3c\0\x14\0\0\1q\1t\0\0\0\0\0");
    leave(), reply(1, 60, 21, "t", 0), ask();
}

static size_t heap(void) {
    struct mallinfo2 now = mallinfo2();
    return now.uordblks + now.hblkhd;
}

int main(int count, char **words) {
    if (count != 3) return fprintf(stderr, "held MODE TURNS\n"), 2;
    uint64_t half = strtoull(words[2], NULL, 10) / 2;
    for (size_t way = 0; way < sizeof WAYS / sizeof *WAYS; way++) {
        if (strcmp(WAYS[way].name, words[1]) != 0) continue;
        begin(WAYS[way].mode);
        for (uint64_t turn = 1; turn <= half; turn++) WAYS[way].turn(turn);
        size_t before = heap();
        for (uint64_t turn = half + 1; turn <= 2 * half; turn++) WAYS[way].turn(turn);
        printf("%.2f\n", ((double)heap() - (double)before) / (double)half);
        lapin_close(&session);
        return 0;
    }
    return fprintf(stderr, "held: there is no way %s\n", words[1]), 2;
}
