/* RabbitMQ's tutorial 6, request and reply: rpc_client HOST PORT N. */
#include "tutorial.h"

int main(int count, char **words) {
    lapin_connection *c = begin(count, words);
    char queue[256], room[600];
    lapin_queue found = {"", 0, 0};
    uint64_t confirm, consumer = 0;
    need(c, lapin_queue_declare(c, 1, "", LAPIN_EXCLUSIVE, NULL, &found));
    snprintf(queue, sizeof queue, "%s", found.name);
    need(c, (consumer = lapin_consume(c, 1, queue, "", LAPIN_NO_ACK, NULL)));
    lapin_properties properties = lapin_no_properties();
    properties.flags = LAPIN_CORRELATION_ID | LAPIN_REPLY_TO;
    properties.correlation_id = lapin_text("1"), properties.reply_to = lapin_text(queue);
    lapin_octets list = lapin_listed(&properties, room, sizeof room);
    printf(" [x] Requesting fib(%s)\n", words[3]);
    need(c, lapin_publish_bytes(c, 1, "", "rpc_queue", false, words[3], strlen(words[3]), &list, &confirm));
    lapin_delivered message;
    need(c, lapin_next(c, consumer, &message, 10000));
    printf(" [.] Got %.*s\n", (int)message.body.length, message.body.at);
    lapin_disconnect(c);
}
