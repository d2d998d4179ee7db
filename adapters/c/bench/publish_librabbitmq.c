/* The same over librabbitmq: publish_librabbitmq HOST PORT N SIZE WINDOW. */
#include <stdio.h>
#include <stdlib.h>
#include <sys/resource.h>
#include <time.h>
#include <amqp.h>
#include <amqp_framing.h>
#include <amqp_tcp_socket.h>

int main(int count, char **words) {
    if (count != 6) return 2;
    unsigned long n = strtoul(words[3], 0, 10), size = strtoul(words[4], 0, 10), window = strtoul(words[5], 0, 10), done = 0;
    amqp_connection_state_t c = amqp_new_connection();
    amqp_socket_t *s = amqp_tcp_socket_new(c);
    if (amqp_socket_open(s, words[1], atoi(words[2]))) return 1;
    if (amqp_login(c, "/", 2047, 131072, 0, AMQP_SASL_METHOD_PLAIN, "guest", "guest").reply_type != AMQP_RESPONSE_NORMAL) return 1;
    amqp_channel_open(c, 1);
    amqp_confirm_select(c, 1);
    amqp_queue_declare(c, 1, amqp_cstring_bytes("bench"), 0, 0, 0, 0, amqp_empty_table);
    amqp_bytes_t body = {size, calloc(size + 1, 1)};
    struct timespec a, b;
    struct rusage ra, rb;
    clock_gettime(CLOCK_MONOTONIC, &a), getrusage(RUSAGE_SELF, &ra);
    for (unsigned long i = 0; i < n || done < n;) {
        while (i < n && i - done < window) {
            if (amqp_basic_publish(c, 1, amqp_empty_bytes, amqp_cstring_bytes("bench"), 0, 0, NULL, body)) return 1;
            i++;
        }
        amqp_frame_t f;
        if (amqp_simple_wait_frame(c, &f)) return 1;
        if (f.frame_type == AMQP_FRAME_METHOD && f.payload.method.id == AMQP_BASIC_ACK_METHOD) {
            amqp_basic_ack_t *ack = f.payload.method.decoded;
            done = ack->multiple ? ack->delivery_tag : done + 1; /* counts, as most programs do */
        }
        amqp_maybe_release_buffers(c);
    }
    clock_gettime(CLOCK_MONOTONIC, &b), getrusage(RUSAGE_SELF, &rb);
#define US(x) (x.tv_sec * 1e6 + x.tv_usec)
    printf("librabbitmq: %lu messages, %.2f us user, %.2f us system a message\n", n,
           (US(rb.ru_utime) - US(ra.ru_utime)) / n,
           (US(rb.ru_stime) - US(ra.ru_stime)) / n);
    amqp_queue_purge(c, 1, amqp_cstring_bytes("bench"));
    return 0;
}
