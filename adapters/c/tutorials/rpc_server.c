/* RabbitMQ's tutorial 6, request and reply: rpc_server HOST PORT REQUESTS. */
#include "tutorial.h"

static uint64_t fib(int n) {
    uint64_t a = 0, b = 1, c;
    while (n-- > 0) c = a + b, a = b, b = c;
    return a;
}

int main(int count, char **words) {
    lapin_connection *c = begin(count, words);
    char reply_to[256], room[300], body[32];
    uint64_t confirm, consumer = 0;
    need(c, lapin_qos(c, 1, 1, false) && lapin_queue_declare(c, 1, "rpc_queue", 0, NULL, NULL) &&
                (consumer = lapin_consume(c, 1, "rpc_queue", "", 0, NULL)));
    printf(" [x] Awaiting RPC requests\n"), fflush(stdout);
    for (int i = 0; i < atoi(words[3]); i++) {
        lapin_delivered message;
        need(c, lapin_next(c, consumer, &message, 10000));
        int n = atoi(message.body.at);
        lapin_properties asked, answer = lapin_no_properties();
        if (!lapin_read_properties(message.properties, &asked)) printf(" [.] its properties are none\n");
        snprintf(reply_to, sizeof reply_to, "%.*s", (int)asked.reply_to.length, asked.reply_to.at);
        answer.flags = LAPIN_CORRELATION_ID, answer.correlation_id = asked.correlation_id;
        lapin_octets list = lapin_listed(&answer, room, sizeof room);
        snprintf(body, sizeof body, "%llu", (unsigned long long)fib(n));
        printf(" [.] fib(%d)\n", n);
        need(c, lapin_publish_bytes(c, 1, "", reply_to, false, body, strlen(body), &list, &confirm));
        lapin_ack(&c->session, message.numbers.acker, false);
        need(c, lapin_flush(c));
    }
    lapin_disconnect(c);
}
