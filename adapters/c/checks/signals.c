/* A signal every 2 ms, without SA_RESTART, from the opening to the end: signals HOST PORT. Nothing of 8 MB is lost or doubled, and errno stays. */
#include "../tutorials/tutorial.h"

#include <signal.h>
#include <sys/time.h>

static volatile sig_atomic_t met;
static void on_signal(int number) { met += number == SIGALRM; }

int main(int count, char **words) {
    static char body[100000];
    struct sigaction action;
    struct itimerval each = {{0, 2000}, {0, 2000}};
    uint64_t confirms[80];
    memset(&action, 0, sizeof action), action.sa_handler = on_signal;
    sigaction(SIGALRM, &action, NULL), setitimer(ITIMER_REAL, &each, NULL);
    errno = EDOM;
    lapin_connection *c = begin(count, words);
    need(c, lapin_confirm_select(c, 1));
    for (int i = 0; i < 80; i++) {
        memset(body, 'a' + i % 26, sizeof body);
        need(c, lapin_publish_bytes(c, 1, "", "signals", false, body, sizeof body, NULL, &confirms[i]));
    }
    for (int i = 0; i < 80; i++) need(c, lapin_wait(c, confirms[i]) == LAPIN_ACK);
    need(c, lapin_disconnect(c));
    if (errno != EDOM) return printf("errno became %d\n", errno), 1;
    printf("80 acks, %s signals\n", met > 100 ? "over a hundred" : "few");
    return 0;
}
