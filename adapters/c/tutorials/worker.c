/* RabbitMQ's tutorial 2, work queues: worker HOST PORT TASKS. Each dot of a task takes a second. */
#include "tutorial.h"

int main(int count, char **words) {
    lapin_connection *c = begin(count, words);
    uint64_t consumer = 0;
    need(c, lapin_qos(c, 1, 1, false) && lapin_queue_declare(c, 1, "task_queue", LAPIN_DURABLE, NULL, NULL) &&
                (consumer = lapin_consume(c, 1, "task_queue", "", 0, NULL)));
    for (int i = 0; i < atoi(words[3]); i++) {
        lapin_delivered message;
        need(c, lapin_next(c, consumer, &message, 10000));
        printf(" [x] Received %.*s\n", (int)message.body.length, message.body.at);
        for (size_t at = 0; at < message.body.length; at++)
            if (message.body.at[at] == '.') sleep(1);
        printf(" [x] Done, acknowledged: %s\n", lapin_ack(&c->session, message.numbers.acker, false) ? "no" : "yes");
        need(c, lapin_flush(c));
    }
    lapin_disconnect(c);
}
