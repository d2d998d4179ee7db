/* The broker's last words stand in each error: last_words HOST PORT. A call of more than 4096 bytes leaves whole. */
#include "../tutorials/tutorial.h"

int main(int count, char **words) {
    lapin_connection *c = begin(count, words);
    static char room[6100], text[5000];
    uint64_t confirm;
    lapin_writer w = lapin_into(room, sizeof room);
    lapin_octets long_text = {text, sizeof text};
    memset(text, 'b', sizeof text), lapin_put_text(&w, "a", long_text);
    lapin_octets arguments = lapin_written(&w);
    need(c, lapin_queue_bind(c, 1, "q", "e", "k", &arguments) && lapin_confirm_select(c, 1));
    need(c, lapin_publish_bytes(c, 1, "", "q", false, "open", 4, NULL, &confirm));
    if (lapin_queue_declare(c, 1, "q", LAPIN_PASSIVE, NULL, NULL)) return 1;
    printf("call: %s\n", lapin_error(c));
    if (lapin_wait(c, confirm) != LAPIN_ERROR) return 1;
    printf("publish: %s\n", lapin_error(c));
    if (lapin_qos(c, 1, 1, false)) return 1;
    printf("refused: %s\n", lapin_error(c));
    if (lapin_publish_bytes(c, 1, "", "q", false, "late", 4, NULL, &confirm)) return 1;
    printf("refused publish: %s\n", lapin_error(c));
    need(c, lapin_channel_open(c, 2));
    while (lapin_turn(c, 10000)) {}
    printf("connection: %s\n", lapin_error(c));
    if (lapin_qos(c, 2, 1, false)) return 1;
    printf("later: %s\n", lapin_error(c));
    lapin_disconnect(c);
    return 0;
}
