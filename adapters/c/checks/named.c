/* An opening with options: named HOST PORT MECHANISM NAME [PAIRS]. Says what was agreed, and what the broker told of itself. */
#include "../connection.h"

int main(int count, char **words) {
    static lapin_connection c;
    lapin_options options = LAPIN_OPTIONS;
    if (count < 5) return 2;
    options.limits.mechanism = (uint32_t)atoi(words[3]);
    options.connection_name = words[4];
    if (count > 5) options.properties = words[5], options.properties_length = strlen(words[5]);
    bool is_open = lapin_connect_with(&c, words[1], words[2], "bob", "secret-password", "/", &options, 10000);
    size_t length;
    const char *told = lapin_told_by_broker(&c, &length);
    if (is_open)
        printf("open by %u with frames of %u, told %zu octets, of which the first is %d\n", lapin_agreed(&c).mechanism, lapin_agreed(&c).frame_max, length,
               told[0]);
    else
        printf("not open: %s\n", lapin_error(&c));
    for (size_t i = 0; c.leaving && i + 15 <= c.leaving_length; i++)
        if (!memcmp(c.leaving + i, "secret-password", 15)) return printf("the password is kept\n"), 1;
    lapin_disconnect(&c);
    return lapin_told_by_broker(&c, &length) || length;
}
