/* Publishes N messages of SIZE bytes with confirms on one connection that THREADS share, on a channel each, each with at most WINDOW without an outcome:
 * publish_shared HOST PORT N SIZE WINDOW [THREADS]. */
#include "../shared.h"

#include <sys/resource.h>

static double us(struct timeval t) { return (double)t.tv_sec * 1e6 + (double)t.tv_usec; }

typedef struct {
    lapin_caller mine;
    pthread_t thread;
    unsigned long n, size, window, acks;
    uint64_t *confirms;
    char *body;
    uint16_t channel;
} publisher;

static void *publish(void *given) {
    publisher *p = (publisher *)given;
    for (unsigned long sent = 0, done = 0; done < p->n;) {
        for (; sent < p->n && sent - done < p->window; sent++)
            if (!lapin_shared_publish(&p->mine, p->channel, "", "bench", false, p->body, p->size, NULL, &p->confirms[sent])) return NULL;
        uint32_t outcome = lapin_shared_wait(&p->mine, p->confirms[done], -1);
        if (outcome == LAPIN_ERROR) return fprintf(stderr, "%s\n", lapin_shared_error(&p->mine)), (void *)NULL;
        for (; outcome; outcome = done < sent ? lapin_shared_settled(&p->mine, p->confirms[done]) : (uint32_t)LAPIN_NONE) {
            p->acks += outcome == LAPIN_ACK;
            done++;
        }
    }
    return NULL;
}

int main(int count, char **words) {
    lapin_caller first;
    if (count < 6) return 2;
    unsigned long n = strtoul(words[3], 0, 10), acks = 0, threads = count > 6 ? strtoul(words[6], 0, 10) : 1;
    publisher *all = (publisher *)calloc(threads, sizeof *all);
    if (!lapin_shared_connect(&first, words[1], words[2], "guest", "guest", "/")) return fprintf(stderr, "%s\n", lapin_shared_error(&first)), 1;
    for (unsigned long i = 0; i < threads; i++) {
        publisher *p = &all[i];
        lapin_shared_join(&p->mine, first.shared);
        p->n = n / threads, p->size = strtoul(words[4], 0, 10), p->window = strtoul(words[5], 0, 10);
        p->body = (char *)calloc(p->size + 1, 1), p->confirms = (uint64_t *)calloc(p->n + 1, sizeof(uint64_t));
        p->channel = lapin_shared_channel(&first);
        if (!p->channel || !lapin_shared_confirm_select(&first, p->channel) || !lapin_shared_queue_declare(&first, p->channel, "bench", 0, NULL, NULL))
            return fprintf(stderr, "%s\n", lapin_shared_error(&first)), 1;
    }
    struct rusage before, after;
    getrusage(RUSAGE_SELF, &before);
    for (unsigned long i = 0; i < threads; i++)
        if (pthread_create(&all[i].thread, NULL, publish, &all[i])) return 1;
    for (unsigned long i = 0; i < threads; i++) pthread_join(all[i].thread, NULL), acks += all[i].acks;
    getrusage(RUSAGE_SELF, &after);
    printf("lapin in C, shared: %lu messages, %lu acks, %.2f us user, %.2f us system a message\n", n, acks,
           (us(after.ru_utime) - us(before.ru_utime)) / (double)n, (us(after.ru_stime) - us(before.ru_stime)) / (double)n);
    lapin_shared_queue_purge(&first, all[0].channel, "bench", NULL);
    for (unsigned long i = 0; i < threads; i++) lapin_shared_leave(&all[i].mine), free(all[i].body), free(all[i].confirms);
    lapin_shared_leave(&first);
    free(all);
    return 0;
}
