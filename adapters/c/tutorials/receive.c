/* RabbitMQ's tutorial 1, hello world: receive HOST PORT MESSAGES. */
#include "tutorial.h"

int main(int count, char **words) {
    lapin_connection *c = begin(count, words);
    uint64_t consumer = 0;
    need(c, lapin_queue_declare(c, 1, "hello", 0, NULL, NULL) && (consumer = lapin_consume(c, 1, "hello", "", 0, NULL)));
    for (int i = 0; i < atoi(words[3]); i++) {
        lapin_delivered message;
        need(c, lapin_next(c, consumer, &message, 10000));
        printf(" [x] Received %.*s\n", (int)message.body.length, message.body.at);
        lapin_ack(&c->session, message.numbers.acker, false);
    }
    lapin_disconnect(c);
}
