/* Consumers beside publishers: shared_consumers HOST PORT MESSAGES PAUSE. Four threads ask for the messages of one consumer, one of them by a
 * handler; each second message is acknowledged by another thread. Two others publish as many meanwhile. The first message of the handler takes PAUSE
 * milliseconds. Each message comes once, to each thread in the order of its tags. */
#include "threads.h"

static unsigned long messages, pause_for;
static uint64_t consumer, *left;
static unsigned char *seen;
static size_t left_count, taken;
static pthread_mutex_t mine = PTHREAD_MUTEX_INITIALIZER;

/* Counts a message; of each second one the acknowledgement is left to another thread. Whether there is another one. */
static bool handle(lapin_caller *caller, const lapin_delivered *message, void *given) {
    worker *w = (worker *)given;
    unsigned long tag = message->numbers.delivery_tag;
    char body[32];
    snprintf(body, sizeof body, "%lu", tag);
    if (tag <= w->others || !lapin_equal(message->body, lapin_text(body))) printf("message %lu behind %lu\n", tag, w->others), exit(1);
    if (w->number == 0 && !w->acks && pause_for) rest((unsigned)pause_for);
    w->others = tag, w->acks++;
    pthread_mutex_lock(&mine);
    if (seen[tag]++) printf("message %lu came twice\n", tag), exit(1);
    bool is_last = ++taken == messages;
    if (tag % 2) left[left_count++] = message->numbers.acker;
    pthread_mutex_unlock(&mine);
    if (tag % 2 == 0) need(caller, lapin_shared_ack(caller, message->numbers.acker, false));
    return !is_last;
}

static void *take(void *given) {
    worker *w = (worker *)given;
    lapin_delivered message;
    if (w->number == 0) lapin_shared_run(&w->mine, consumer, handle, w, 1000);
    else
        while (lapin_shared_next(&w->mine, consumer, &message, 1000) && handle(&w->mine, &message, w)) {}
    return NULL;
}

static void *acknowledge(void *given) {
    worker *w = (worker *)given;
    for (size_t done = 0; done < (messages + 1) / 2;) {
        pthread_mutex_lock(&mine);
        uint64_t acker = done < left_count ? left[done] : 0;
        bool is_there = done < left_count;
        pthread_mutex_unlock(&mine);
        if (is_there) need(&w->mine, lapin_shared_ack(&w->mine, acker, false)), done++;
        else rest(1);
    }
    return NULL;
}

static void *publish(void *given) {
    worker *w = (worker *)given;
    for (unsigned long n = 0; n < messages; n++) {
        uint64_t confirm;
        need(&w->mine, lapin_shared_publish(&w->mine, 2, "", "other", false, "x", 1, NULL, &confirm));
        w->acks += lapin_shared_wait(&w->mine, confirm, 20000) == LAPIN_ACK;
    }
    return NULL;
}

int main(int count, char **words) {
    lapin_bounds bounds = LAPIN_BOUNDS;
    if (count < 5) return 2;
    messages = strtoul(words[3], 0, 10), pause_for = strtoul(words[4], 0, 10);
    begin_shared(count, words, 1, bounds);
    left = (uint64_t *)calloc(messages, sizeof *left), seen = (unsigned char *)calloc(messages + 1, 1);
    need(&first, lapin_shared_channel_open(&first, 1) && lapin_shared_channel_open(&first, 2) && lapin_shared_confirm_select(&first, 2));
    need(&first, (consumer = lapin_shared_consume(&first, 1, "q", "t", 0, NULL)) != 0 && !strcmp(first.answer, "t"));
    start(0, 4, take), start(4, 1, acknowledge), start(5, 2, publish);
    join_all(0, 7);
    printf("%zu messages, %lu and %lu acks\n", taken, workers[5].acks, workers[6].acks);
    need(&first, lapin_shared_close(&first));
    lapin_shared_leave(&first);
    free(left), free(seen);
    return taken != messages;
}
