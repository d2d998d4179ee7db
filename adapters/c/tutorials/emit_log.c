/* RabbitMQ's tutorials 3 to 5, exchanges: emit_log HOST PORT KIND KEY TEXT. The kind is fanout, direct or topic. */
#include "tutorial.h"

int main(int count, char **words) {
    lapin_connection *c = begin(count, words);
    char name[512];
    snprintf(name, sizeof name, "%s_logs", words[3]);
    need(c, lapin_confirm_select(c, 1) && lapin_exchange_declare(c, 1, name, words[3], 0, NULL));
    printf(" [x] Sent %s: %s\n", words[4], outcome_name(lapin_publish_text(c, 1, name, words[4], words[5], NULL)));
    lapin_disconnect(c);
}
