/* An opening within two seconds: opening HOST PORT. Says how long it took, and why it failed. */
#include "../connection.h"

int main(int count, char **words) {
    static lapin_connection c;
    lapin_opening limits = {0, 131072, 2047, 60, LAPIN_PLAIN};
    if (count < 3) return 2;
    uint64_t since = lapin_now();
    bool is_open = lapin_connect_within(&c, words[1], words[2], "guest", "secret-password", "/", &limits, 2000);
    printf("%s after %llu ms: %s\n", is_open ? "open" : "not open", (unsigned long long)(lapin_now() - since), lapin_error(&c));
    for (size_t i = 0; c.leaving && i + 15 <= c.leaving_length; i++)
        if (!memcmp(c.leaving + i, "secret-password", 15)) return printf("the password is kept\n"), 1;
    lapin_disconnect(&c);
    return lapin_now() - since > 4000;
}
