/* Each call once: calls HOST PORT. What the broker answers is told, and what it was asked is the broker's to look at. */
#include "../tutorials/tutorial.h"

int main(int count, char **words) {
    lapin_connection *c = begin(count, words);
    static char room[64], small[2], long_name[300];
    lapin_writer w = lapin_into(room, sizeof room), none = lapin_into(small, sizeof small);
    lapin_queue found = {"", 0, 0};
    lapin_delivered message;
    uint64_t counted = 0, consumer = 0;
    bool is_there = true;
    lapin_put_int(&w, "n", 5), lapin_put_double(&w, "f", 1.5);
    lapin_octets table = lapin_written(&w);
    need(c, lapin_queue_declare(c, 1, "q", LAPIN_DURABLE | LAPIN_AUTO_DELETE, &table, &found));
    printf("queue %s, %u messages, %u consumers\n", found.name, found.messages, found.consumers);
    need(c, lapin_queue_declare(c, 1, "", LAPIN_PASSIVE | LAPIN_EXCLUSIVE, NULL, NULL));
    need(c, lapin_exchange_declare(c, 1, "e", "topic", LAPIN_DURABLE | LAPIN_INTERNAL, &table));
    need(c, lapin_exchange_declare(c, 1, "e", "topic", LAPIN_PASSIVE | LAPIN_AUTO_DELETE, NULL) && lapin_exchange_bind(c, 1, "d", "s", "k", &table));
    need(c, lapin_queue_bind(c, 1, "q", "e", "k", &table) && lapin_queue_unbind(c, 1, "q", "e", "k", NULL));
    need(c, lapin_queue_purge(c, 1, "q", &counted)), printf("purged %llu\n", (unsigned long long)counted);
    need(c, lapin_queue_delete(c, 1, "q", LAPIN_IF_UNUSED | LAPIN_IF_EMPTY, &counted)), printf("deleted %llu\n", (unsigned long long)counted);
    need(c, lapin_exchange_delete(c, 1, "e", LAPIN_IF_UNUSED) && lapin_qos(c, 1, 300, true) && lapin_recover(c, 1));
    need(c, lapin_get(c, 1, "q", 0, &message, &is_there) && !is_there && lapin_get(c, 1, "q", LAPIN_NO_ACK, &message, &is_there) && is_there);
    printf("got %.*s of %.*s, %u left\n", (int)message.body.length, message.body.at, (int)message.routing_key.length, message.routing_key.at, c->fields.messages);
    lapin_properties p;
    if (!lapin_read_properties(message.properties, &p) || p.flags != LAPIN_CORRELATION_ID || !lapin_equal(p.correlation_id, lapin_text("\xe9"))) return 1;
    need(c, (consumer = lapin_consume(c, 1, "q", "t", LAPIN_NO_LOCAL | LAPIN_EXCLUSIVE, &table)) != 0), printf("consumer %s\n", c->answer);
    need(c, lapin_cancel(c, 1, "t") && lapin_tx_select(c, 1) && lapin_tx_commit(c, 1) && lapin_tx_rollback(c, 1));
    memset(long_name, 'n', sizeof long_name - 1), lapin_put_text(&none, "k", table);
    table = lapin_written(&none);
    bool is_refused = !lapin_queue_bind(c, 1, long_name, "e", "k", NULL) && !lapin_queue_bind(c, 1, "q", "e", "k", &table) &&
                      !lapin_queue_bind(c, 1, "\xff", "e", "k", NULL) && !lapin_ask(c, 1, "\0\x3c", 2) && !lapin_ask(c, 1, "\0\x3c\0\x28", 4);
    uint64_t confirm;
    is_refused = is_refused && !lapin_publish_bytes(c, 1, "", "q", true, "x", 1, &table, &confirm) && !lapin_confirm_select(c, 9);
    printf("refused: %s; %s\n", is_refused ? "yes" : "no", lapin_error(c));
    need(c, lapin_channel_close(c, 1) && lapin_disconnect(c));
    return 0;
}
