/* Deliveries come while publishes leave, more of both than the kernel holds: crossing HOST PORT. Neither side waits for the other for ever, and
 * each delivery is seen at once, in its order. */
#include "../tutorials/tutorial.h"

int main(int count, char **words) {
    static char body[1 << 20];
    lapin_connection *c = begin(count, words);
    lapin_delivered message;
    uint64_t confirm;
    uint64_t consumer = lapin_consume(c, 1, "q", "", LAPIN_NO_ACK, NULL);
    need(c, consumer != 0);
    for (int i = 0; i < 24; i++) need(c, lapin_publish_bytes(c, 1, "", "q", false, body, sizeof body, NULL, &confirm));
    for (int i = 0; i < 24; i++) {
        need(c, lapin_next(c, consumer, &message, -1));
        if (message.numbers.delivery_tag != (uint64_t)i + 1 || message.body.length != sizeof body || message.body.at[i] != 'd') return 1;
    }
    need(c, lapin_flush(c) && lapin_disconnect(c));
    printf("24 MB each way\n");
    return 0;
}
