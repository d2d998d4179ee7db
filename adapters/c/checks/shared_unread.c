/* A broker that doesn't read: shared_unread HOST PORT. Eight threads publish until their time ends each of three publishes, and then make each other
 * call: each ends within its time, or at once since the connection is lost. The broker reads again: exactly what was taken arrives. */
#include "threads.h"

enum { LIMIT = 200, BODY = 50000 };

static pthread_mutex_t mine = PTHREAD_MUTEX_INITIALIZER;
static unsigned long taken, acks;
static uint64_t consumer;

/* A call that can't be done was told so in time. */
static uint64_t late(worker *w, const char *what, bool has_failed, uint64_t since) {
    uint64_t took = lapin_now() - since;
    bool is_told = has_failed && !strncmp(lapin_shared_error(&w->mine), "TimedOut", 8);
    if (took > LIMIT + 1500 || !is_told) printf("%s took %llu ms: %s\n", what, (unsigned long long)took, lapin_shared_error(&w->mine)), exit(1);
    return lapin_now();
}

static void *fill(void *given) {
    worker *w = (worker *)given;
    static const char body[BODY] = {0};
    uint64_t confirms[2001], since = lapin_now();
    unsigned long refused = 0, count = 0;
    lapin_delivered message;
    w->mine.timeout = LIMIT;
    while (refused < 3) {
        bool is_taken = lapin_shared_publish(&w->mine, 1, "", "q", w->number % 2, body, BODY, NULL, &confirms[count]);
        count += is_taken, refused += !is_taken;
        since = is_taken ? lapin_now() : late(w, "publish", true, since);
        if (count == 2000) printf("all of it left\n"), exit(1);
    }
    if (count) since = late(w, "wait", lapin_shared_wait(&w->mine, confirms[count - 1], LIMIT) == LAPIN_NONE, since);
    since = late(w, "flush", !lapin_shared_flush(&w->mine), since);
    since = late(w, "ask", !lapin_shared_qos(&w->mine, 1, 5, false), since);
    since = late(w, "channel", !lapin_shared_channel(&w->mine), since);
    since = late(w, "next", !lapin_shared_next(&w->mine, consumer, &message, LIMIT), since);
    if (!lapin_shared_is_blocked(&w->mine)) printf("it isn't said to be blocked\n"), exit(1);
    unsigned long found = 0;
    for (unsigned long i = 0; i < count; i++) found += lapin_shared_wait(&w->mine, confirms[i], 20000) == LAPIN_ACK;
    pthread_mutex_lock(&mine);
    taken += count, acks += found;
    pthread_mutex_unlock(&mine);
    return NULL;
}

int main(int count, char **words) {
    lapin_bounds bounds = {1 << 18, 0};
    int few = 1 << 16;
    begin_shared(count, words, 0, bounds);
    setsockopt(first.shared->core.socket, SOL_SOCKET, SO_SNDBUF, &few, sizeof few);
    need(&first, lapin_shared_channel_open(&first, 1) && lapin_shared_confirm_select(&first, 1));
    need(&first, (consumer = lapin_shared_consume(&first, 1, "q", "t", 0, NULL)) != 0 && lapin_shared_await_blocked(&first, true, 5000));
    start(0, MANY, fill);
    join_all(0, MANY);
    printf("%lu taken, %lu acks\n", taken, acks);
    first.timeout = 3000;
    need(&first, lapin_shared_close(&first));
    lapin_shared_leave(&first);
    return taken != acks;
}
