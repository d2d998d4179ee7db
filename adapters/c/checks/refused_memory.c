/* Each request for memory of a session's life is refused in turn, alone and with all behind it until that is told. A call that says that nothing was
 * done is made again. Then all goes as it would have gone, or the client has ended, as it says; and at the end nothing is held. */
#include <errno.h>
#include <stdio.h>
#include <string.h>

#include "../lapin.h"

extern void *__libc_malloc(size_t), *__libc_realloc(void *, size_t), *__libc_calloc(size_t, size_t), *__libc_memalign(size_t, size_t);
extern void __libc_free(void *);
static long at = -1, requests, live;
static bool is_told, has_ended, is_lasting, was_refused, takes;
static bool refuses(void) {
    bool is_now = requests == at || (is_lasting && at >= 0 && requests > at && !is_told);
    requests++, was_refused |= is_now, errno = is_now ? ENOMEM : errno;
    return is_now;
}
static void *counted(void *given) { return live += given != NULL, given; }
void *malloc(size_t n) { return refuses() ? NULL : counted(__libc_malloc(n)); }
void *calloc(size_t a, size_t b) { return refuses() ? NULL : counted(__libc_calloc(a, b)); }
void *realloc(void *p, size_t n) { return refuses() ? NULL : p ? __libc_realloc(p, n) : counted(__libc_malloc(n)); }
void *aligned_alloc(size_t a, size_t n) { return refuses() ? NULL : counted(__libc_memalign(a, n)); }
int posix_memalign(void **p, size_t a, size_t n) { return refuses() ? ENOMEM : ((*p = counted(__libc_memalign(a, n))), 0); }
void free(void *p) { live -= p != NULL, __libc_free(p); }

static lapin_handle h;
static struct { char text[100000]; size_t length; } logs[2], *logged = logs;
static char room[70000];
static void note(const void *bytes, size_t length) { memcpy(logged->text + logged->length, bytes, length), logged->length += length; }
static uint32_t status;
static bool lacks(void) { return has_ended |= status == LAPIN_ENDED, status == LAPIN_NO_MEMORY && (is_told = true); }
static void why(void) {
    lapin_refusal r = {0, 0, 0, 0, 0, 0, 0, 0};
    if (status == LAPIN_REFUSED && lapin_why(&h, &r) == LAPIN_DONE) note(&r.kind, 4), note(&r.code, 2), note(&r.state, 4);
}
static void done(void) { note(&status, 1), why(), note(room, lapin_answer(&h, room, sizeof room)); }
#define MADE(call) (status = (call), status = lacks() ? (call) : status, lacks(), done())
static void leave(void) { MADE(lapin_send(&h, true, 1 << 16)), note(room, lapin_leaving(&h, room, sizeof room)); }
static void come(const char *bytes, size_t length) {
    status = lapin_receive(&h, bytes, length);
    if (lacks()) status = lapin_receive(&h, bytes, length);
    for (lacks(); status == LAPIN_KEPT || status == LAPIN_REFUSED; lacks()) why(), is_told |= status == LAPIN_KEPT, status = lapin_receive(&h, "", 0);
    done();
}
#define COME(text) come(text, sizeof text - 1)
/* a call, what leaves by it, and its reply, which takes no memory */
static void call(uint16_t channel, const char *method, size_t length, const char *bytes, size_t count) {
    uint64_t ticket = 0;
    lapin_fields f = {0, 0, 0, 0, {0, 0, 0, 0, 0, 0, false}};
    MADE(lapin_call(&h, channel, method, length, &ticket)), note(&ticket, 8);
    if (status) return;
    leave(), come(bytes, count);
    status = lapin_reply(&h, ticket, &f), takes |= status == LAPIN_NO_MEMORY, lacks(), done();
    note(&f.number, 8), note(&f.kind, 4), note(&f.messages, 4), note(&f.message.body, 8);
}
#define CALL(channel, method, bytes) call(channel, method, sizeof method - 1, bytes, sizeof bytes - 1)
static void deliver(void) {
    lapin_message m = {0, 0, 0, 0, 0, 0, false};
    status = lapin_delivery(&h, 1, &m), takes |= status == LAPIN_NO_MEMORY, lacks(), done(), note(&m.acker, 8);
}

/* an outcome with what came back, which no want of memory loses */
static void confirm(uint64_t number) {
    uint64_t outcome = 0;
    lapin_return r = {0, 0, {0, 0, 0, 0, 0, 0, false}};
    status = lapin_confirmed(&h, number, &outcome), takes |= status == LAPIN_NO_MEMORY, lacks(), done(), note(&outcome, 8);
    MADE(lapin_return_at(&h, 0, &r)), note(&r.code, 2), note(&r.text, 8), note(&r.message.body, 8);
}

#define LIST "\x20\0\0\0\0\x0f\2\xff\xfe\x64\x3f\xf8\0\0\0\0\0\0\1kV" /* the headers of a float under a name that is no text, and of nothing */

static void life(void) {
    static char body[9000];
    uint64_t c = 0;
    MADE(lapin_open(&h, 4096)), CALL(1, "\0\x32\0\x1e\0\0\1q\0", ""), CALL(1, "\0\x14\0\x0a\0", "\1\0\1\0\0\0\x08\0\x14\0\x0b\0\0\0\0\xce");
    CALL(1, "\0\x55\0\x0a\0", "\1\0\1\0\0\0\4\0\x55\0\x0b\xce");
    CALL(1, "\0\x3c\0\x14\0\0\1q\1t\0\0\0\0\3\1aV", "\1\0\1\0\0\0\6\0\x3c\0\x15\1t\xce");
    CALL(1, "\0\x32\0\x0a\0\0\1q\2\0\0\0\x0f\2\xff\xff\x64\x3f\xf8\0\0\0\0\0\0\1kV", "\1\0\1\0\0\0\x0e\0\x32\0\x0b\1q\0\0\0\3\0\0\0\1\xce");
    for (size_t k = 0; k < 3; k++) {
        MADE(lapin_publish(&h, 1, "", 0, "q", 1, true, false, body, k * 4000, k ? LIST : "\0\0", k ? sizeof LIST - 1 : 2, &c)), note(&c, 1);
    }
    leave(), COME("\1\0\1\0\0\0\x0d\0\x3c\0\x50\0\0\0\0\0\0\0\1\0\xce"), COME("\1\0\1\0\0\0\x12\0\x3c\0\x3c\1t\0\0\0\0\0\0\0\1\0\0\1q\xce");
    COME("\2\0\1\0\0\0\x21\0\x3c\0\0\0\0\0\0\0\0\0\5" LIST "\xce\3\0\1\0\0\0\5hello\xce");
    CALL(1, "\0\x3c\0\x46\0\0\1q\0", "\1\0\1\0\0\0\x14\0\x3c\0\x47\0\0\0\0\0\0\0\2\0\0\1q\0\0\0\7\xce"
         "\2\0\1\0\0\0\x0e\0\x3c\0\0\0\0\0\0\0\0\0\3\0\0\xce\3\0\1\0\0\0\3got\xce");
    COME("\1\0\1\0\0\0\x12\0\x3c\0\x32\1\x38\x08NO_ROUTE\0\1q\xce\2\0\1\0\0\0\x0e\0\x3c\0\0\0\0\0\0\0\0\0\2\0\0\xce\3\0\1\0\0\0\2zz\xce");
    COME("\1\0\1\0\0\0\x0d\0\x3c\0\x50\0\0\0\0\0\0\0\2\0\xce"), status = lapin_outcome(&h, 1), done();
    confirm(2), deliver();
    MADE(lapin_ack(&h, 1, false)), leave(), COME("\1\0\1\0\0\0\x0d\0\x3c\0\x50\0\0\0\0\0\0\0\x09\0\xce"), leave(), status = lapin_outcome(&h, 3), done();
    CALL(0, "\0\x0a\0\x32\0\xc8\1b\0\0\0\0", "\1\0\0\0\0\0\4\0\x0a\0\x33\xce"), MADE(lapin_lost(&h)), lapin_close(&h);
}

int main(void) {
    long wrong = 0, ended = 0, total = (life(), requests);
    logged = logs + 1;
    for (long turn = -1; turn < 2 * total; turn++) {
        at = turn < total ? turn : turn - total, is_lasting = turn >= total;
        long before = live;
        logged->length = 0, requests = 0, is_told = has_ended = was_refused = takes = false;
        life();
        bool is_same = logs[0].length == logs[1].length && !memcmp(logs[0].text, logs[1].text, logs[0].length);
        if (!is_same && !has_ended) wrong++, printf("request %ld%s: all differs, and nothing said so\n", at, is_lasting ? " and on" : "");
        if (live != before) wrong++, printf("request %ld: %ld pieces are held\n", at, live - before);
        if (takes) wrong++, printf("request %ld: a reply or a message took memory\n", at);
        ended += has_ended;
    }
    printf("%ld requests, refused alone and with those behind them: %ld ended, %ld wrong\n", total, ended, wrong);
    return wrong > 0;
}
