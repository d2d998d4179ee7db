/* RabbitMQ's tutorial 2, work queues: new_task HOST PORT TASK. A task outlives a restart of the broker. */
#include "tutorial.h"

int main(int count, char **words) {
    lapin_connection *c = begin(count, words);
    char room[16];
    lapin_properties properties = lapin_no_properties();
    properties.flags = LAPIN_DELIVERY_MODE, properties.delivery_mode = 2;
    lapin_octets persistent = lapin_listed(&properties, room, sizeof room);
    need(c, lapin_confirm_select(c, 1) && lapin_queue_declare(c, 1, "task_queue", LAPIN_DURABLE, NULL, NULL));
    printf(" [x] Sent %s: %s\n", words[3], outcome_name(lapin_publish_text(c, 1, "", "task_queue", words[3], &persistent)));
    lapin_disconnect(c);
}
