/* What each tutorial begins with: `PROGRAM HOST PORT ..`, a connection as guest, and channel 1. */
#include "../connection.h"

static inline void need(lapin_connection *c, bool good) {
    if (!good) fprintf(stderr, "lapin: %s\n", lapin_error(c)), exit(1);
}

static inline lapin_connection *begin(int count, char **words) {
    static lapin_connection c;
    if (count < 3) fprintf(stderr, "%s HOST PORT ..\n", words[0]), exit(2);
    need(&c, lapin_connect(&c, words[1], words[2], "guest", "guest", "/"));
    need(&c, lapin_channel_open(&c, 1));
    return &c;
}

/* What an outcome is called. */
static inline const char *outcome_name(uint32_t outcome) {
    static const char *const NAMES[] = {"nothing", "ack", "nack", "not requested", "an error", "an error", "that no queue wanted it"};
    return outcome < 7 ? NAMES[outcome] : "?";
}
