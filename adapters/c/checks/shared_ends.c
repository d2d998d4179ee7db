/* The ends of a shared connection: shared_ends HOST PORT HOW. Eight threads wait, each for something else, most without a time: it is closed from
 * another thread (close), or the broker hangs up (cut); or the process is forked (fork), or one that waits is cancelled (cancel); or one waits
 * alone, and the broker answers no close (alone). Each is told why, in its own words, and in time. */
#include "threads.h"

#include <sys/wait.h>

static uint64_t confirms[2], consumers[2];
static pthread_mutex_t mine = PTHREAD_MUTEX_INITIALIZER;
static unsigned told;

static bool waits(lapin_caller *caller, unsigned number) {
    lapin_delivered message;
    size_t place = 2;
    bool is_there;
    switch (number) {
    case 0:
    case 1: return lapin_shared_wait(caller, confirms[number], -1) != LAPIN_ERROR;
    case 2: return lapin_shared_next(caller, consumers[0], &message, -1);
    case 3: return lapin_shared_next_of(caller, consumers, 2, &place, &message, -1);
    case 4: return lapin_shared_queue_declare(caller, 1, "unanswered", 0, NULL, NULL);
    case 5: return lapin_shared_get(caller, 2, "unanswered", 0, &message, &is_there);
    case 6: return lapin_shared_await_blocked(caller, true, -1);
    default: return lapin_shared_next(caller, consumers[1], &message, 60000);
    }
}

static void *wait_for_it(void *given) {
    worker *w = (worker *)given;
    bool is_good = waits(&w->mine, w->number);
    pthread_mutex_lock(&mine);
    told += !is_good;
    printf("%u: %s\n", w->number, is_good ? "it came" : lapin_shared_error(&w->mine));
    pthread_mutex_unlock(&mine);
    return NULL;
}

static uint64_t told_at;

/* A thread that waits alone, and so for the socket, is told at once that another one closes the connection, though no octet comes. */
static void *wait_alone(void *given) {
    worker *w = (worker *)given;
    told += lapin_shared_wait(&w->mine, confirms[0], -1) == LAPIN_ERROR;
    told_at = lapin_now();
    printf("0: %s\n", lapin_shared_error(&w->mine));
    return NULL;
}

static void close_unanswered(void) {
    start(0, 1, wait_alone);
    rest(300);
    uint64_t since = lapin_now();
    first.timeout = 3000;
    bool is_closed = lapin_shared_close(&first);
    uint64_t until = lapin_now();
    join_all(0, 1);
    printf("%u told, %s, within %s; %s\n", told, is_closed || until - since < 2900 ? "answered" : "not answered",
           told_at - since < 1500 ? "its time" : "no time", lapin_shared_error(&first));
    lapin_shared_leave(&first);
}

static void *child_does(void *given) {
    lapin_caller *caller = (lapin_caller *)given;
    lapin_delivered message;
    uint64_t confirm = 77;
    bool is_refused = !lapin_shared_qos(caller, 1, 5, false) && strstr(lapin_shared_error(caller), "forked") &&
                      !lapin_shared_publish(caller, 1, "", "q", true, "twice", 5, NULL, &confirm) && !lapin_shared_flush(caller) &&
                      lapin_shared_wait(caller, confirms[0], -1) == LAPIN_ERROR && !lapin_shared_next(caller, consumers[0], &message, -1) &&
                      !lapin_shared_close(caller) && strstr(lapin_shared_error(caller), "forked") && confirm == 77;
    lapin_shared_leave(caller);
    return is_refused ? given : NULL;
}

static void fork_here(void) {
    int status = 1;
    pid_t child = fork();
    if (!child) _exit(child_does(&first) ? 0 : 1);
    if (waitpid(child, &status, 0) != child || status) printf("the child was not told: %d\n", status), exit(1);
    uint64_t confirm;
    need(&first, lapin_shared_publish(&first, 1, "", "last", true, "last", 4, NULL, &confirm));
    need(&first, lapin_shared_wait(&first, confirm, 10000) == LAPIN_ACK);
}

/* What was published leaves before what is acknowledged then; a number that was given is not given again before its close, also where the broker
 * closed the channel; a call within a call of this thread's is refused. */
static void keep_order_and_numbers(void) {
    lapin_delivered message;
    need(&first, lapin_shared_next(&first, consumers[1], &message, 10000) && lapin_equal(message.body, lapin_text("early")));
    need(&first, lapin_shared_publish(&first, 1, "", "q", false, "before", 6, NULL, NULL) && lapin_shared_ack(&first, message.numbers.acker, false));
    if (lapin_shared_ack(&first, message.numbers.acker, false)) printf("it was acknowledged twice\n"), exit(1);
    need(&first, lapin_shared_channel(&first) == 3);
    for (unsigned i = 0; i < 100 && lapin_shared_qos(&first, 3, 1, false); i++) rest(20);
    if (!strstr(lapin_shared_error(&first), "406 by the broker")) printf("it was not closed: %s\n", lapin_shared_error(&first)), exit(1);
    need(&first, lapin_shared_channel(&first) == 4);
    lapin_shared_channel_close(&first, 3);
    need(&first, lapin_shared_channel(&first) == 3);
    pthread_mutex_lock(&first.shared->lock); /* as where a jump left a call */
    bool is_refused = !lapin_shared_qos(&first, 4, 1, false) && strstr(lapin_shared_error(&first), "within a call");
    pthread_mutex_unlock(&first.shared->lock);
    need(&first, is_refused && lapin_shared_qos(&first, 4, 1, false));
}

int main(int count, char **words) {
    lapin_bounds bounds = LAPIN_BOUNDS;
    if (count < 4) return 2;
    bool is_close = !strcmp(words[3], "close"), is_fork = !strcmp(words[3], "fork"), is_cancel = !strcmp(words[3], "cancel");
    begin_shared(count, words, 0, bounds);
    for (uint16_t i = 1; i < 3; i++) {
        need(&first, lapin_shared_channel_open(&first, i) && lapin_shared_confirm_select(&first, i));
        need(&first, (consumers[i - 1] = lapin_shared_consume(&first, i, "q", i == 1 ? "a" : "b", 0, NULL)) != 0);
    }
    keep_order_and_numbers();
    for (unsigned i = 0; i < 2; i++) need(&first, lapin_shared_publish(&first, 1, "", "q", true, "x", 1, NULL, &confirms[i]));
    if (!strcmp(words[3], "alone")) return close_unanswered(), 0;
    start(0, MANY, wait_for_it);
    rest(300);
    if (is_fork) fork_here();
    if (is_cancel) {
        uint64_t confirm;
        pthread_cancel(workers[7].thread); /* it ends behind its call: the connection is as it was */
        need(&first, lapin_shared_publish(&first, 1, "", "last", true, "last", 4, NULL, &confirm));
        need(&first, lapin_shared_wait(&first, confirm, 10000) == LAPIN_ACK);
    }
    uint64_t since = lapin_now();
    bool is_closed = (is_close || is_fork || is_cancel) && lapin_shared_close(&first), again = lapin_shared_close(&first);
    join_all(0, MANY);
    printf("%u told, %s, within %s; %s\n", told, is_closed && again ? "closed" : "not closed", lapin_now() - since < 2000 ? "its time" : "no time",
           lapin_shared_error(&first));
    lapin_shared_leave(&first);
    lapin_shared_leave(&first);
    return 0;
}
