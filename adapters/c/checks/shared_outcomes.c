/* Each confirm is its own: shared_outcomes HOST PORT THREADS CHANNELS EACH WINDOW [CONFIRMS]. So many threads publish EACH messages, on one channel
 * or on several; each third is mandatory, and each second thread asks for its youngest outcome first. A line for each says its body and its outcome.
 * At most CONFIRMS have none. */
#include "threads.h"

static unsigned long each, window, channels;
static uint64_t *confirms;
static char *outcomes;

static void take(worker *w, unsigned long n) {
    unsigned long at = w->number * each + n;
    uint32_t outcome = lapin_shared_wait(&w->mine, confirms[at], 20000);
    const lapin_returned *back = lapin_shared_came_back(&w->mine);
    char body[32];
    snprintf(body, sizeof body, "%u.%lu", w->number, n);
    if ((outcome == LAPIN_RETURNED) != (back != NULL) || (back && (strcmp(back->body.at, body) || back->code != 312))) outcome = 5;
    if (outcome == LAPIN_ERROR || !outcome) need(&w->mine, false);
    need(&w->mine, lapin_shared_settled(&w->mine, confirms[at]) == LAPIN_ERROR && !strcmp(lapin_shared_error(&w->mine), "AlreadyTaken"));
    outcomes[at] = (char)outcome;
}

static void *publish(void *given) {
    worker *w = (worker *)given;
    uint16_t channel = (uint16_t)(1 + w->number % channels);
    for (unsigned long from = 0; from < each; from += window) {
        unsigned long to = from + window < each ? from + window : each;
        for (unsigned long n = from; n < to; n++) {
            char body[32];
            snprintf(body, sizeof body, "%u.%lu", w->number, n);
            need(&w->mine, lapin_shared_publish(&w->mine, channel, "", "q", n % 3 == 0, body, strlen(body), NULL, &confirms[w->number * each + n]));
        }
        for (unsigned long k = 0; k < to - from; k++) take(w, w->number % 2 ? to - 1 - k : from + k);
    }
    return NULL;
}

int main(int count, char **words) {
    lapin_bounds bounds = LAPIN_BOUNDS;
    if (count < 7) return 2;
    unsigned threads = (unsigned)strtoul(words[3], 0, 10);
    channels = strtoul(words[4], 0, 10), each = strtoul(words[5], 0, 10), window = strtoul(words[6], 0, 10);
    if (count > 7) bounds.confirms = strtoul(words[7], 0, 10);
    begin_shared(count, words, 0, bounds);
    confirms = (uint64_t *)calloc(threads * each, sizeof *confirms), outcomes = (char *)calloc(threads * each, 1);
    for (unsigned long i = 1; i <= channels; i++)
        need(&first, lapin_shared_channel(&first) == i && lapin_shared_confirm_select(&first, (uint16_t)i));
    start(0, threads, publish);
    join_all(0, threads);
    for (unsigned long i = 0; i < threads * each; i++) printf("%lu.%lu %s\n", i / each, i % each, outcome_name((uint32_t)outcomes[i]));
    need(&first, lapin_shared_close(&first));
    lapin_shared_leave(&first);
    free(confirms), free(outcomes);
    return 0;
}
