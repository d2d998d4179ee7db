/* RabbitMQ's tutorial 7, publisher confirms: publisher_confirms HOST PORT MESSAGES. One at a time, and as they come. */
#include "tutorial.h"

int main(int count, char **words) {
    lapin_connection *c = begin(count, words);
    const char *name = "confirms-in-c";
    uint64_t waiting = 0;
    unsigned long n = strtoul(words[3], 0, 10), sent = 0, done = 0, acks = 0;
    need(c, lapin_confirm_select(c, 1) && lapin_queue_declare(c, 1, name, LAPIN_EXCLUSIVE, NULL, NULL));
    for (unsigned long i = 0; i < n; i++) acks += lapin_publish_text(c, 1, "", name, "one at a time", NULL) == LAPIN_ACK;
    printf(" [x] one at a time: %lu acks\n", acks);
    uint64_t *confirms = (uint64_t *)calloc(n + 1, sizeof *confirms);
    for (acks = 0; done < n;) {
        for (; sent < n && sent - done < 500; sent++)
            need(c, lapin_publish_bytes(c, 1, "", name, true, "as they come", 12, NULL, &confirms[sent]));
        need(c, lapin_turn(c, 10000));
        for (uint32_t outcome; done < sent && (outcome = lapin_settled(c, confirms[done])); done++) acks += outcome == LAPIN_ACK;
    }
    printf(" [x] as they come: %lu acks\n", acks);
    need(c, lapin_queue_purge(c, 1, name, &waiting));
    printf(" [x] in the queue: count %llu\n", (unsigned long long)waiting);
    free(confirms);
    lapin_disconnect(c);
}
