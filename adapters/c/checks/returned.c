/* Whose is a returned message? returned HOST PORT MESSAGES WINDOW EACH ORDER: each EACHth mandatory publish goes to nobody, each seventh publish
 * isn't mandatory. Outcomes are asked for in their order, or with ORDER 1 the last first. Each is its own publish's. */
#include "../tutorials/tutorial.h"

static unsigned long wrong, back, acks;
static const lapin_octets ID = {"\0\x80\1" "1", 4}; /* the message_id 1 */

static bool takes(lapin_connection *c, unsigned long i, uint64_t confirm, bool is_lost) {
    uint32_t outcome = lapin_settled(c, confirm);
    const lapin_returned *message = lapin_came_back(c);
    char body[32];
    if (!outcome) return false;
    need(c, outcome != LAPIN_ERROR);
    snprintf(body, sizeof body, "%lu", i);
    if (is_lost != (outcome == LAPIN_RETURNED) || (message && strcmp(message->body.at, body))) wrong++;
    if (message && (message->code != 312 || strcmp(message->routing_key.at, "nobody") || !lapin_equal(message->properties, ID))) wrong++;
    back += outcome == LAPIN_RETURNED, acks += outcome == LAPIN_ACK;
    return true;
}

int main(int count, char **words) {
    lapin_connection *c = begin(count, words);
    char body[32];
    unsigned long n = strtoul(words[3], 0, 10), window = strtoul(words[4], 0, 10), each = strtoul(words[5], 0, 10);
    unsigned long done = 0, from = 0, sent = 0;
    bool is_backward = words[6][0] == '1';
    uint64_t *confirms = (uint64_t *)calloc(n, sizeof *confirms);
    need(c, lapin_confirm_select(c, 1) && lapin_queue_declare(c, 1, "returned-in-c", LAPIN_EXCLUSIVE, NULL, NULL));
    while (done < n) {
        for (; sent < n && sent - from < window; sent++) {
            bool is_lost = sent % each == each - 1, is_mandatory = is_lost || sent % 7;
            snprintf(body, sizeof body, "%lu", sent);
            const char *key = is_lost ? "nobody" : "returned-in-c";
            need(c, lapin_publish_bytes(c, 1, "", key, is_mandatory, body, strlen(body), &ID, &confirms[sent]));
        }
        need(c, lapin_turn(c, 10000));
        for (unsigned long k = 0, more = sent - from; k < more; k++) {
            unsigned long i = is_backward ? sent - 1 - k : from + k;
            if (confirms[i] && takes(c, i, confirms[i], i % each == each - 1)) confirms[i] = 0, done++;
            else if (confirms[i] && !is_backward) break;
        }
        while (from < sent && !confirms[from]) from++;
    }
    size_t kept = c->publications.kept - (lapin_came_back(c) ? 1 : 0); /* the last one is good until the next */
    printf("%lu acks, %lu came back, %lu wrong, %zu kept\n", acks, back, wrong, kept);
    lapin_disconnect(c);
    free(confirms);
    return wrong || kept;
}
