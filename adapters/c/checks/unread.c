/* A broker that doesn't read: unread HOST PORT PUBLISHES. Each call with a time limit ends within it, and what it was about goes on: once the
 * broker reads again, exactly those publishes arrive that were taken. Where the broker is silent too, the connection is lost in time, which may
 * come at any of these calls. */
#include "../tutorials/tutorial.h"

enum { LIMIT = 200 };

static uint64_t since;

/* A call has ended within its limit, by its time alone or since the connection is lost: whether to go on. */
static bool goes_on(lapin_connection *c, const char *what, bool has_failed) {
    uint64_t took = lapin_now() - since;
    if (took > LIMIT + 1500) printf("%s took %llu ms\n", what, (unsigned long long)took), exit(1);
    if (!c->is_lost && has_failed && strncmp(lapin_error(c), "TimedOut", 8)) printf("%s: %s\n", what, lapin_error(c)), exit(1);
    since = lapin_now();
    return !c->is_lost;
}

/* A call that can't be answered while the broker doesn't read. */
static void times_out(lapin_connection *c, const char *what, bool has_failed) {
    if (goes_on(c, what, has_failed) && !has_failed) printf("%s was answered\n", what), exit(1);
}

/* Publishes until nothing more leaves: three were refused, and then a flush, since the system may find room for what waited. Returns how many
 * were taken. */
static unsigned long fill(lapin_connection *c, unsigned long most, uint64_t *confirms) {
    static char body[100000];
    unsigned long taken = 0, refused = 0;
    for (unsigned long i = 0; i < most; i++) {
        bool is_taken = lapin_publish_bytes(c, 1, "", "q", i % 2, body, sizeof body, NULL, &confirms[taken]);
        taken += is_taken, refused += !is_taken;
        if (!goes_on(c, "publish", !is_taken)) return taken;
        if (refused < 3) continue;
        bool has_left = lapin_flush(c);
        if (!goes_on(c, "flush", !has_left) || !has_left) return taken;
    }
    printf("all of %lu publishes left\n", most), exit(1);
}

int main(int count, char **words) {
    lapin_connection *c = begin(count, words);
    unsigned long most = strtoul(words[3], 0, 10), acks = 0;
    uint64_t *confirms = (uint64_t *)calloc(most + 1, sizeof *confirms);
    need(c, lapin_confirm_select(c, 1));
    c->timeout = LIMIT, since = lapin_now();
    unsigned long taken = fill(c, most, confirms);
    if (!c->is_lost) times_out(c, "wait", lapin_wait(c, confirms[0]) == LAPIN_NONE);
    if (!c->is_lost) times_out(c, "ask", !lapin_qos(c, 1, 5, false));
    c->timeout = -1;
    while (acks < taken && lapin_wait(c, confirms[acks]) == LAPIN_ACK) acks++;
    if (taken == acks) need(c, lapin_disconnect(c));
    printf("%lu taken, %lu acks; %s\n", taken, acks, lapin_error(c));
    lapin_disconnect(c);
    free(confirms);
    return 0;
}
