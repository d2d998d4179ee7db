/* A jump out of a signal handler leaves a call that waits: jump HOST PORT. Nobody knows then what left, so the connection is lost and says so; a
 * second disconnect closes nobody's file. */
#include "../tutorials/tutorial.h"

#include <fcntl.h>
#include <setjmp.h>
#include <signal.h>
#include <sys/time.h>

static sigjmp_buf back;
static void on_signal(int number) { siglongjmp(back, number); }

int main(int count, char **words) {
    lapin_connection *c = begin(count, words);
    struct sigaction action;
    struct itimerval once = {{0, 0}, {0, 200000}};
    uint64_t confirm;
    memset(&action, 0, sizeof action), action.sa_handler = on_signal;
    sigaction(SIGALRM, &action, NULL), setitimer(ITIMER_REAL, &once, NULL);
    if (!sigsetjmp(back, 1)) return lapin_turn(c, 60000), printf("no signal came\n"), 1;
    if (lapin_turn(c, 1) || lapin_qos(c, 1, 5, false) || lapin_publish_bytes(c, 1, "", "q", true, "x", 1, NULL, &confirm)) return 1;
    printf("%s\n", lapin_error(c));
    int socket = c->socket;
    lapin_disconnect(c);
    int other = open("/dev/null", O_RDONLY);
    lapin_disconnect(c), lapin_disconnect(c);
    printf("a file of the socket's number: %s, %s\n", other == socket ? "yes" : "no", fcntl(other, F_GETFD) < 0 ? "closed" : "open");
    return fcntl(other, F_GETFD) < 0;
}
