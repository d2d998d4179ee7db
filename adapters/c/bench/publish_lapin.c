/* Publishes N messages of SIZE bytes with confirms, at most WINDOW without an outcome: publish_lapin HOST PORT N SIZE WINDOW
 * [mandatory]. */
#include "../connection.h"

#include <sys/resource.h>

static double us(struct timeval t) { return (double)t.tv_sec * 1e6 + (double)t.tv_usec; }

int main(int count, char **words) {
    lapin_connection c;
    if (count < 6) return 2;
    bool is_mandatory = count > 6;
    unsigned long n = strtoul(words[3], 0, 10), size = strtoul(words[4], 0, 10), window = strtoul(words[5], 0, 10), sent = 0, done = 0, acks = 0;
    if (!lapin_connect(&c, words[1], words[2], "guest", "guest", "/") || !lapin_channel_open(&c, 1) || !lapin_confirm_select(&c, 1) ||
        !lapin_queue_declare(&c, 1, "bench", 0, NULL, NULL))
        return fprintf(stderr, "%s\n", lapin_error(&c)), 1;
    char *body = (char *)calloc(size + 1, 1);
    uint64_t *confirms = (uint64_t *)calloc(n + 1, sizeof *confirms);
    struct rusage before, after;
    getrusage(RUSAGE_SELF, &before);
    while (done < n) {
        for (; sent < n && sent - done < window; sent++)
            if (!lapin_publish_bytes(&c, 1, "", "bench", is_mandatory, body, size, NULL, &confirms[sent])) return 1;
        if (!lapin_turn(&c, -1)) return fprintf(stderr, "%s\n", lapin_error(&c)), 1;
        for (uint32_t outcome; done < sent && (outcome = lapin_settled(&c, confirms[done])); done++) acks += outcome == LAPIN_ACK;
    }
    getrusage(RUSAGE_SELF, &after);
    printf("lapin in C: %lu messages, %lu acks, %.2f us user, %.2f us system a message\n", n, acks, (us(after.ru_utime) - us(before.ru_utime)) / (double)n,
           (us(after.ru_stime) - us(before.ru_stime)) / (double)n);
    lapin_queue_purge(&c, 1, "bench", NULL);
    lapin_disconnect(&c);
    return 0;
}
