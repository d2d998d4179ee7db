/* RabbitMQ's tutorials 3 to 5, exchanges: receive_logs HOST PORT MESSAGES KIND KEY..; with topic a key may have * and #. */
#include "tutorial.h"

int main(int count, char **words) {
    lapin_connection *c = begin(count, words);
    char name[512], queue[256];
    lapin_queue found = {"", 0, 0};
    uint64_t consumer = 0;
    snprintf(name, sizeof name, "%s_logs", words[4]);
    need(c, lapin_exchange_declare(c, 1, name, words[4], 0, NULL) && lapin_queue_declare(c, 1, "", LAPIN_EXCLUSIVE, NULL, &found));
    snprintf(queue, sizeof queue, "%s", found.name);
    for (int i = 5; i < count; i++) need(c, lapin_queue_bind(c, 1, queue, name, words[i], NULL));
    need(c, (consumer = lapin_consume(c, 1, queue, "", LAPIN_NO_ACK, NULL)));
    printf(" [*] Waiting for logs\n"), fflush(stdout);
    for (int i = 0; i < atoi(words[3]); i++) {
        lapin_delivered message;
        need(c, lapin_next(c, consumer, &message, 10000));
        printf(" [x] %.*s:%.*s\n", (int)message.routing_key.length, message.routing_key.at, (int)message.body.length, message.body.at);
    }
    lapin_disconnect(c);
}
