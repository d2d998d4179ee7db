/* What programs of many threads begin with: a shared connection, and threads that have a caller each. */
#include "../shared.h"

typedef struct {
    lapin_caller mine;
    pthread_t thread;
    unsigned number;
    unsigned long acks, others;
    void *given;
} worker;

enum { MANY = 8 };

static worker workers[64];
static lapin_caller first;

static inline void need(lapin_caller *mine, bool good) {
    if (!good) printf("lapin: %s\n", lapin_shared_error(mine)), exit(1);
}

/* Connects as `PROGRAM HOST PORT ..`, with this heartbeat and these bounds. */
static inline void begin_shared(int count, char **words, uint16_t heartbeat, lapin_bounds bounds) {
    lapin_options options = LAPIN_OPTIONS;
    options.limits.heartbeat = heartbeat;
    if (count < 3) fprintf(stderr, "%s HOST PORT ..\n", words[0]), exit(2);
    need(&first, lapin_shared_connect_with(&first, words[1], words[2], "guest", "guest", "/", &options, &bounds, 60000));
}

/* So many threads do this from a worker on, each as its own caller. */
static inline void start(unsigned from, unsigned many, void *(*task)(void *)) {
    for (unsigned i = from; i < from + many; i++) {
        workers[i].number = i;
        need(&workers[i].mine, lapin_shared_join(&workers[i].mine, first.shared));
        if (pthread_create(&workers[i].thread, NULL, task, &workers[i])) exit(3);
    }
}

static inline void join_all(unsigned from, unsigned many) {
    for (unsigned i = from; i < from + many; i++) {
        pthread_join(workers[i].thread, NULL);
        lapin_shared_leave(&workers[i].mine);
    }
}

static inline void rest(unsigned milliseconds) {
    struct timespec time = {(time_t)(milliseconds / 1000), (long)(milliseconds % 1000) * 1000000};
    while (nanosleep(&time, &time) && errno == EINTR) {}
}

static inline const char *outcome_name(uint32_t outcome) {
    static const char *const NAMES[] = {"none", "ack", "nack", "not requested", "error", "?", "returned"};
    return outcome < 7 ? NAMES[outcome] : "?";
}
