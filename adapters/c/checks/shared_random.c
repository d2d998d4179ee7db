/* Random schedules: shared_random HOST PORT SEED ROUNDS. In each round eight threads share a connection, and each does as its seed says: it publishes,
 * asks for outcomes of its own and of others, makes calls, takes messages and settles them, and in some rounds one of them closes the connection.
 * What each was told is printed: `p BODY OUTCOME`, `c BODY yes|no`, `m TAG`, and behind the round whether it was lost. The broker judges. */
#include "threads.h"

enum { STEPS = 14, CHANNELS = 3 };

typedef struct { char kind; unsigned thread, number; uint64_t confirm; uint32_t outcome; bool is_taken; } note;

static note notes[MANY][STEPS];
static uint64_t consumer, seed;
static char taken[100000];
static size_t taken_length;
static pthread_mutex_t mine = PTHREAD_MUTEX_INITIALIZER;

static unsigned chance(uint64_t *state, unsigned most) {
    *state ^= *state << 13, *state ^= *state >> 7, *state ^= *state << 17;
    return (unsigned)((*state * 0x2545f4914f6cdd1du) >> 33) % most;
}

static void publish(worker *w, unsigned number, uint64_t *state) {
    note *its = &notes[w->number][number];
    char body[32];
    uint64_t confirm = 0;
    snprintf(body, sizeof body, "%u.%u", w->number, number);
    uint16_t channel = (uint16_t)(1 + chance(state, CHANNELS));
    bool is_done = lapin_shared_publish(&w->mine, channel, "", "q", chance(state, 3) == 0, body, strlen(body), NULL, &confirm);
    pthread_mutex_lock(&mine);
    its->thread = w->number, its->number = number, its->confirm = confirm, its->kind = is_done ? 'p' : 'x';
    pthread_mutex_unlock(&mine);
}

/* A publish that nobody has asked for: of this thread, or of any. */
static note *claim(unsigned from, unsigned to, uint64_t *state) {
    note *found = NULL;
    pthread_mutex_lock(&mine);
    for (unsigned t = from; t < to; t++)
        for (unsigned n = 0; n < STEPS; n++)
            if (notes[t][n].kind == 'p' && !notes[t][n].is_taken && (!found || chance(state, 4) == 0)) found = &notes[t][n];
    if (found) found->is_taken = true;
    pthread_mutex_unlock(&mine);
    return found;
}

static void ask(lapin_caller *caller, note *its, int timeout) {
    if (!its) return;
    uint32_t outcome = timeout ? lapin_shared_wait(caller, its->confirm, timeout) : lapin_shared_settled(caller, its->confirm);
    const lapin_returned *back = lapin_shared_came_back(caller);
    char body[32];
    snprintf(body, sizeof body, "%u.%u", its->thread, its->number);
    if (outcome == LAPIN_RETURNED && (!back || strcmp(back->body.at, body))) outcome = 5;
    pthread_mutex_lock(&mine);
    its->outcome = outcome, its->is_taken = outcome != LAPIN_NONE;
    pthread_mutex_unlock(&mine);
}

static void call(worker *w, unsigned number, uint64_t *state) {
    char name[32];
    snprintf(name, sizeof name, "%u.%u", w->number, number);
    w->mine.timeout = 10000;
    bool is_done = lapin_shared_queue_declare(&w->mine, (uint16_t)(1 + chance(state, CHANNELS)), name, 0, NULL, NULL);
    w->mine.timeout = -1;
    pthread_mutex_lock(&mine);
    note *its = &notes[w->number][number];
    its->thread = w->number, its->number = number, its->kind = 'c', its->outcome = is_done;
    pthread_mutex_unlock(&mine);
}

static void take(worker *w, uint64_t *state) {
    lapin_delivered message;
    if (!lapin_shared_next(&w->mine, consumer, &message, (int)chance(state, 4))) return;
    pthread_mutex_lock(&mine);
    taken_length += (size_t)snprintf(taken + taken_length, 32, "m %.*s\n", (int)message.body.length, message.body.at);
    pthread_mutex_unlock(&mine);
    if (chance(state, 4)) lapin_shared_ack(&w->mine, message.numbers.acker, false);
    else lapin_shared_nack(&w->mine, message.numbers.acker, false, true);
}

static void *act(void *given) {
    worker *w = (worker *)given;
    uint64_t state = (seed + 1) * 0x9e3779b97f4a7c15u ^ ((uint64_t)w->number + 1) * 0xd1342543de82ef95u;
    unsigned closes = w->number == 0 && seed % 8 == 5 ? 1 + chance(&state, STEPS) : STEPS + 1;
    for (unsigned number = 0; number < STEPS; number++) {
        unsigned what = chance(&state, 10);
        if (number == closes) lapin_shared_close(&w->mine);
        if (what < 4) publish(w, number, &state);
        else if (what < 5) ask(&w->mine, claim(w->number, w->number + 1, &state), (int)chance(&state, 3) * 10000);
        else if (what < 6) ask(&w->mine, claim(0, MANY, &state), (int)chance(&state, 3) * 10000);
        else if (what < 7) call(w, number, &state);
        else if (what < 9) take(w, &state);
        else if (chance(&state, 2)) rest(1);
        else lapin_shared_flush(&w->mine);
    }
    for (note *its; (its = claim(w->number, w->number + 1, &state));) ask(&w->mine, its, 10000);
    return NULL;
}

static void run(int count, char **words) {
    lapin_bounds bounds = LAPIN_BOUNDS;
    memset(notes, 0, sizeof notes), taken_length = 0, taken[0] = 0;
    if (seed % 4 == 1) bounds.confirms = 5, bounds.octets = 400;
    begin_shared(count, words, 0, bounds);
    bool is_open = true;
    for (uint16_t i = 1; i <= CHANNELS; i++)
        is_open = is_open && lapin_shared_channel_open(&first, i) && lapin_shared_confirm_select(&first, i);
    consumer = is_open ? lapin_shared_consume(&first, 1, "q", "t", 0, NULL) : 0;
    start(0, MANY, act);
    join_all(0, MANY);
    uint64_t state = seed + 1;
    for (note *its; (its = claim(0, MANY, &state));) ask(&first, its, 10000);
    bool is_closed = lapin_shared_close(&first);
    for (unsigned t = 0; t < MANY; t++)
        for (unsigned n = 0; n < STEPS; n++)
            if (notes[t][n].kind == 'p' || notes[t][n].kind == 'c')
                printf("%c %u.%u %s\n", notes[t][n].kind, t, n,
                       notes[t][n].kind == 'c' ? (notes[t][n].outcome ? "yes" : "no") : outcome_name(notes[t][n].outcome));
    printf("%s%s %llu\n", taken, is_closed ? "closed" : "lost", (unsigned long long)seed);
    lapin_shared_leave(&first);
}

int main(int count, char **words) {
    if (count < 5) return 2;
    uint64_t from = strtoul(words[3], 0, 10), rounds = strtoul(words[4], 0, 10);
    for (seed = from; seed < from + rounds; seed++) {
        alarm(60); /* none waits for ever */
        run(count, words);
    }
    return 0;
}
