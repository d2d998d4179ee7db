/* Other threads and other processes: elsewhere HOST PORT. From a second thread each call is refused and changes nothing, until it takes the
 * connection over; in a process that was forked the connection is lost, and its parent's goes on. */
#include "../tutorials/tutorial.h"

#include <pthread.h>
#include <sys/wait.h>

static void *second(void *given) {
    lapin_connection *c = (lapin_connection *)given;
    lapin_delivered message;
    uint64_t confirm = 77;
    bool is_refused = !lapin_qos(c, 1, 5, false) && !lapin_turn(c, 10) && !lapin_flush(c) && !lapin_next(c, 1, &message, 10) &&
                      !lapin_publish_bytes(c, 1, "", "q", true, "x", 1, NULL, &confirm) && lapin_wait(c, 1) == LAPIN_ERROR &&
                      lapin_settled(c, 1) == LAPIN_ERROR && !lapin_disconnect(c) && strstr(lapin_error(c), "another thread");
    return is_refused && confirm == 77 ? given : NULL;
}

static void *mover(void *given) {
    lapin_connection *c = (lapin_connection *)given;
    lapin_move_here(c);
    return lapin_publish_text(c, 1, "", "q", "moved", NULL) == LAPIN_ACK ? given : NULL;
}

static bool run(void *(*task)(void *), lapin_connection *c) {
    pthread_t thread;
    void *good = NULL;
    return !pthread_create(&thread, NULL, task, c) && !pthread_join(thread, &good) && good;
}

int main(int count, char **words) {
    lapin_connection *c = begin(count, words);
    int status = 1;
    need(c, lapin_confirm_select(c, 1));
    if (!run(second, c)) return printf("a second thread was not refused\n"), 1;
    need(c, lapin_publish_text(c, 1, "", "q", "first", NULL) == LAPIN_ACK);
    if (!run(mover, c)) return printf("it did not move\n"), 1;
    lapin_move_here(c);
    pid_t child = fork();
    if (!child) {
        uint64_t confirm;
        bool is_lost = lapin_publish_bytes(c, 1, "", "q", true, "twice", 5, NULL, &confirm) && !lapin_flush(c) && strstr(lapin_error(c), "forked") &&
                       lapin_wait(c, confirm) == LAPIN_ERROR && !lapin_disconnect(c) && !lapin_disconnect(c);
        _exit(is_lost ? 0 : 1);
    }
    if (waitpid(child, &status, 0) != child || status) return printf("the child's was not lost\n"), 1;
    need(c, lapin_publish_text(c, 1, "", "q", "last", NULL) == LAPIN_ACK && lapin_disconnect(c));
    printf("refused, moved, forked\n");
    return 0;
}
