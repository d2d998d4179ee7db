/* Tables, arrays and lists of properties as octets, both ways: each type, nested, cut at every place, and in every room that is too small. */
#include <stdio.h>
#include <stdlib.h>

#include "../octets.h"

static int wrong;
static void is(const char *what, bool good) {
    if (!good) wrong++, printf("%s\n", what);
}
#define IS(what) is(#what, what)

/* One value of each type, and a table and an array of them. */
static void put_all(lapin_writer *w, bool is_array) {
#define KEY(name) (is_array ? NULL : name)
    lapin_put_bool(w, KEY("t"), true), lapin_put_int(w, KEY("I"), -3), lapin_put_int(w, KEY("l"), INT64_MIN), lapin_put_number_of(w, KEY("b"), 'b', 0xff);
    lapin_put_number_of(w, KEY("B"), 'B', 0xff), lapin_put_number_of(w, KEY("s"), 's', 0xfffe), lapin_put_number_of(w, KEY("u"), 'u', 0xfffe);
    lapin_put_number_of(w, KEY("i"), 'i', 0xffffffff), lapin_put_number_of(w, KEY("L"), 'L', UINT64_MAX), lapin_put_number_of(w, KEY("U"), 'U', 1);
    lapin_put_float(w, KEY("f"), 1.5f), lapin_put_double(w, KEY("d"), -0.1), lapin_put_decimal(w, KEY("D"), 2, -314);
    lapin_octets foreign = {"\xe9\0\xff", 3};
    lapin_put_text(w, KEY("S"), lapin_text("text")), lapin_put_bytes(w, KEY("x"), foreign), lapin_put_time(w, KEY("T"), 1767323045u), lapin_put_nothing(w, KEY("V"));
}

static void check_all(lapin_reader r, bool is_array) {
    static const char TYPES[] = "tIlbBsuiLUfdDSxTV";
    static const int64_t NUMBERS[] = {1, -3, INT64_MIN, -1, 255, -2, 65534, 0xffffffff, -1, 1, 0, 0, -314, 0, 0, 1767323045, 0};
    lapin_value v;
    for (size_t i = 0; TYPES[i]; i++) {
        IS(is_array ? lapin_next_value(&r, &v) : lapin_next_pair(&r, &v)), IS(v.type == TYPES[i]);
        if (!strchr("fdSxV", v.type)) IS(v.number == NUMBERS[i]);
        IS(is_array ? v.key.length == 0 : v.key.length == 1 && *v.key.at == TYPES[i]);
        if (v.type == 'f') IS(v.real > 1.49 && v.real < 1.51);
        if (v.type == 'd') IS(v.real < -0.0999 && v.real > -0.1001);
        if (v.type == 'D') IS(v.places == 2);
        if (v.type == 'S') IS(lapin_equal(v.octets, lapin_text("text")));
        if (v.type == 'x') IS(v.octets.length == 3 && !memcmp(v.octets.at, "\xe9\0\xff", 3));
    }
    IS(!(is_array ? lapin_next_value(&r, &v) : lapin_next_pair(&r, &v)) && !r.is_bad);
}

static size_t write_nested(void *room, size_t size) {
    lapin_writer w = lapin_into(room, size);
    put_all(&w, false);
    size_t table = lapin_begin_table(&w, "table"), array = (put_all(&w, false), lapin_begin_array(&w, "array"));
    put_all(&w, true), lapin_end(&w, array), lapin_end(&w, table);
    return lapin_written(&w).at ? w.length : 0;
}

/* Looks at all that a table has, in all that lies in it. */
static unsigned walk(lapin_reader r, bool is_array, unsigned depth) {
    lapin_value v;
    unsigned count = 0;
    while (is_array ? lapin_next_value(&r, &v) : lapin_next_pair(&r, &v))
        count += 1 + ((v.type == 'F' || v.type == 'A') && depth < 50 ? walk(lapin_from(v.octets), v.type == 'A', depth + 1) : 0);
    return count;
}

static void tables(void) {
    static char room[4096];
    lapin_value v, inner;
    size_t length = write_nested(room, sizeof room);
    lapin_octets table = {room, length}, cut;
    IS(length > 0 && walk(lapin_from(table), false, 0) == 17 * 3 + 2);
    IS(lapin_find_value(table, "table", &v) && v.type == 'F' && lapin_find_value(v.octets, "array", &inner) && inner.type == 'A');
    check_all(lapin_from(inner.octets), true);
    IS(!lapin_find_value(table, "none", &v));
    for (size_t i = 0; i < length; i++) { /* in pieces of memory of their own, so that what reads or writes behind them is seen */
        char *small = (char *)malloc(i + 1);
        IS(write_nested(small, i) == 0);
        memcpy(small, room, i), cut.at = small, cut.length = i;
        walk(lapin_from(cut), false, 0), free(small);
    }
    char *exact = (char *)malloc(length);
    IS(write_nested(exact, length) == length && !memcmp(exact, room, length));
    for (size_t i = 0; i < length; i++)
        for (int octet = 0; octet < 256; octet += 15) {
            char was = exact[i];
            exact[i] = (char)octet, cut.at = exact, cut.length = length;
            walk(lapin_from(cut), false, 0), exact[i] = was;
        }
    free(exact);
    lapin_writer w = lapin_into(room, sizeof room);
    char name[300];
    memset(name, 'k', 299), name[299] = 0;
    lapin_put_bool(&w, name, true), IS(w.is_bad && !lapin_written(&w).at);
    for (unsigned i = (w = lapin_into(room, sizeof room), 0); i < 60; i++) lapin_begin_table(&w, "k");
    for (size_t i = 60; i; i--) lapin_end(&w, 7 * i);
    lapin_octets deep = lapin_written(&w);
    unsigned depth = 0;
    while (lapin_find_value(deep, "k", &v)) deep = v.octets, depth++;
    IS(depth == 60);
}

static void lists(void) {
    static const char ALL[] = "\xff\xfc\1a\1b\0\0\0\3\1kV\2\x09\1c\1d\1e\1f\0\0\1\0\0\0\0\0\1g\1h\1i\1j";
    char room[100];
    lapin_octets all = {ALL, sizeof ALL - 1}, none = {"\0", 2}, cut = all;
    lapin_properties p, again = lapin_no_properties();
    IS(lapin_read_properties(all, &p) && p.flags == 0xfffc && p.delivery_mode == 2 && p.priority == 9 && p.timestamp == (uint64_t)1 << 40);
    IS(lapin_equal(p.content_type, lapin_text("a")) && lapin_equal(p.cluster_id, lapin_text("j")) && lapin_equal(p.correlation_id, lapin_text("c")));
    IS(lapin_equal(p.message_id, lapin_text("f")) && lapin_equal(p.type, lapin_text("g")) && lapin_equal(p.headers, lapin_text("\1kV")));
    IS(lapin_equal(lapin_listed(&p, room, sizeof room), all) && lapin_equal(lapin_listed(&again, room, sizeof room), none));
    for (cut.length = 0; cut.length < all.length; cut.length++) IS(!lapin_read_properties(cut, &p));
    for (size_t i = 0; i < all.length; i++) IS(!lapin_listed((lapin_read_properties(all, &p), &p), room, i).at);
    lapin_octets trailing = {"\0\0", 3}, more = {"\0\1\0", 4};
    IS(!lapin_read_properties(trailing, &p)), IS(!lapin_read_properties(more, &p)), IS(lapin_read_properties(none, &p) && !p.flags);
    again.flags = 1, IS(!lapin_listed(&again, room, sizeof room).at);
}

int main(void) {
    static char room[1000];
    lapin_writer w = lapin_into(room, sizeof room);
    put_all(&w, false), check_all(lapin_from(lapin_written(&w)), false);
    tables(), lists();
    return wrong > 0;
}
