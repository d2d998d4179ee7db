/* Many consumers on one channel: next_of HOST PORT COUNT ROUNDS. Each gets a message a round, in turn, and whose it is is told; then one ends. */
#include "../tutorials/tutorial.h"

int main(int count, char **words) {
    lapin_connection *c = begin(count, words);
    size_t many = strtoul(words[3], 0, 10), rounds = strtoul(words[4], 0, 10), place = many, wrong = 0;
    uint64_t *consumers = (uint64_t *)calloc(many, sizeof *consumers);
    size_t *got = (size_t *)calloc(many, sizeof *got);
    lapin_delivered message;
    char tag[32], body[32];
    need(c, !lapin_next_of(c, consumers, 0, &place, &message, 10) && place == many && strstr(lapin_error(c), "TimedOut"));
    for (size_t i = 0; i < many; i++) {
        snprintf(tag, sizeof tag, "t%zu", i);
        need(c, (consumers[i] = lapin_consume(c, 1, "q", tag, LAPIN_NO_ACK, NULL)) != 0);
    }
    for (size_t i = 0; i < many * rounds; i++) {
        need(c, lapin_next_of(c, consumers, many, &place, &message, 10000));
        snprintf(body, sizeof body, "%zu %zu", place, got[place]++);
        wrong += strcmp(message.body.at, body) != 0;
    }
    for (size_t i = 0; i < many; i++) wrong += got[i] != rounds;
    need(c, !lapin_next_of(c, consumers, many, &place, &message, 10000) && place == 1 && strstr(lapin_error(c), "at its end"));
    printf("%zu messages of %zu consumers, %zu wrong\n", many * rounds, many, wrong);
    free(consumers), free(got);
    return wrong || !lapin_disconnect(c);
}
