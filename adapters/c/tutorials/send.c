/* RabbitMQ's tutorial 1, hello world: send HOST PORT. */
#include "tutorial.h"

int main(int count, char **words) {
    lapin_connection *c = begin(count, words);
    need(c, lapin_confirm_select(c, 1) && lapin_queue_declare(c, 1, "hello", 0, NULL, NULL));
    printf(" [x] Sent 'Hello World!', the broker answers %s\n", outcome_name(lapin_publish_text(c, 1, "", "hello", "Hello World!", NULL)));
    lapin_disconnect(c);
}
