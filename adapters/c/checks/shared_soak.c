/* One life of a connection that eight publishers and two consumers share: shared_soak HOST PORT QUEUE EACH FROM .. (eight numbers). Each publisher
 * publishes the numbers from its own on, below EACH, in a window of 50 and mandatory, each tenth to nobody, until the connection is lost or all have
 * their outcomes. `p THREAD.NUMBER OUTCOME` is said of each publish, `m BODY` of each message that was taken and whose ack was sent. */
#include "threads.h"

enum { WINDOW = 50 };

static unsigned long each, from[MANY];
static const char *queue;
static bool is_over;
static uint64_t consumer;
static pthread_mutex_t mine = PTHREAD_MUTEX_INITIALIZER;

static void say(const char *kind, const char *body, const char *outcome) {
    pthread_mutex_lock(&mine);
    printf("%s %s%s\n", kind, body, outcome);
    pthread_mutex_unlock(&mine);
}

static bool take(worker *w, unsigned long number, uint64_t confirm) {
    char body[32], outcome[32];
    uint32_t found = lapin_shared_wait(&w->mine, confirm, 60000);
    const lapin_returned *back = lapin_shared_came_back(&w->mine);
    snprintf(body, sizeof body, "%u.%lu", w->number, number);
    if (back && strcmp(back->body.at, body)) found = 5;
    snprintf(outcome, sizeof outcome, " %s", outcome_name(found));
    say("p", body, outcome);
    return found != LAPIN_ERROR && found != LAPIN_NONE;
}

static void *publish(void *given) {
    worker *w = (worker *)given;
    uint64_t confirms[WINDOW];
    unsigned long done = from[w->number], sent = done;
    bool is_good = true;
    while (is_good && done < each) {
        for (; is_good && sent < each && sent - done < WINDOW; sent += is_good) {
            char body[32];
            snprintf(body, sizeof body, "%u.%lu", w->number, sent);
            const char *key = sent % 10 == 9 ? "nobody" : queue;
            is_good = lapin_shared_publish(&w->mine, 1, "", key, true, body, strlen(body), NULL, &confirms[sent % WINDOW]);
        }
        if (done < sent) is_good = take(w, done, confirms[done % WINDOW]) && is_good, done++;
    }
    for (; done < sent; done++) take(w, done, confirms[done % WINDOW]);
    return NULL;
}

static void *consume(void *given) {
    worker *w = (worker *)given;
    lapin_delivered message;
    for (bool is_last = false; !is_last;) {
        pthread_mutex_lock(&mine);
        is_last = is_over;
        pthread_mutex_unlock(&mine);
        while (lapin_shared_next(&w->mine, consumer, &message, 300)) {
            char body[32];
            snprintf(body, sizeof body, "%.*s", (int)message.body.length, message.body.at);
            if (lapin_shared_ack(&w->mine, message.numbers.acker, false)) say("m", body, "");
        }
    }
    return NULL;
}

int main(int count, char **words) {
    lapin_bounds bounds = LAPIN_BOUNDS;
    if (count < 5 + MANY) return 2;
    queue = words[3], each = strtoul(words[4], 0, 10);
    for (unsigned i = 0; i < MANY; i++) from[i] = strtoul(words[5 + i], 0, 10);
    begin_shared(count, words, 5, bounds);
    if (!lapin_shared_channel_open(&first, 1) || !lapin_shared_confirm_select(&first, 1) || !lapin_shared_channel_open(&first, 2) ||
        !lapin_shared_qos(&first, 2, 200, false) || !(consumer = lapin_shared_consume(&first, 2, queue, "t", 0, NULL)))
        return lapin_shared_leave(&first), 0;
    start(0, MANY, publish), start(MANY, 2, consume);
    join_all(0, MANY);
    pthread_mutex_lock(&mine);
    is_over = true;
    pthread_mutex_unlock(&mine);
    join_all(MANY, 2);
    lapin_shared_leave(&first);
    return 0;
}
