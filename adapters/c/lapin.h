/* The session of one AMQP 0-9-1 connection for callers in C: bytes of the broker go in, bytes for it come out.
 *
 * The library has no socket, no clock and no thread: those are the caller's, and connection.h has them for a blocking caller. A handle is
 * used by one thread at a time. Calls, tables of arguments and lists of properties go in and come out as the octets that AMQP 0-9-1 has for
 * them: those of a table and of a list are handed through as they are, and never read. What a call does stands in docs/CALLING.md, who owns
 * what and what each error leaves in docs/ADAPTERS.md. No call keeps a pointer that it was given.
 */
#ifndef LAPIN_H
#define LAPIN_H

#include <stdbool.h>
#include <stddef.h>
#include <stdint.h>

#ifdef __cplusplus
extern "C" {
#endif

/* What this library is, in three words: the release, "proved" or "unproved", and the sha-256 of the text that it was made of (crates.txt and
 * what lies below crates/). It is good for ever. */
const char *lapin_version(void);

/* What became of a call. */
enum {
    LAPIN_DONE = 0,           /* it was done */
    LAPIN_REFUSED = 1,        /* the session refused it: lapin_why says why */
    LAPIN_NOT_IN_GRAMMAR = 2, /* octets are no call, a line is none that is taken, or an argument is no short text: nothing was done */
    LAPIN_NO_MEMORY = 3,      /* there was no memory: what that leaves stands with each call */
    LAPIN_ENDED = 4,          /* the client takes nothing further */
    LAPIN_MALFORMED = 5,      /* what came is no frame: hang up */
    LAPIN_TOO_LONG = 6,       /* longer than a frame may be */
    LAPIN_CLOSED = 7,         /* there is no client behind the handle */
    LAPIN_PENDING = 8,        /* there is nothing yet */
    LAPIN_GONE = 9,           /* the acker isn't usable, or the consumer is at its end: there will be nothing */
    LAPIN_KEPT = 10           /* what came was kept, and there was no memory for the frame at its head: call again, with no bytes */
};

/* ---- the opening of a connection. Before it the caller sends LAPIN_HEADER */

#define LAPIN_HEADER "AMQP\0\0\x09\x01" /* 8 bytes */

/* How this side says who it is: by the user and the password, or by EXTERNAL, which tells neither, since the broker knows this side from elsewhere,
 * as by a certificate of TLS. In the place of PLAIN AMQPLAIN is said where the broker offers that alone; in the place of EXTERNAL nothing is. */
enum { LAPIN_PLAIN = 0, LAPIN_AMQPLAIN = 1, LAPIN_EXTERNAL = 2 };

/* Begins with stage 0, the limits of this side (channel_max 0 for none, heartbeat in seconds, 0 for none) and the mechanism that it wants. From
 * stage 1 on the mechanism is the one that was said. At stage 3 the connection is open, and the limits are those that both sides keep. */
typedef struct {
    uint32_t stage;
    uint32_t frame_max;
    uint16_t channel_max;
    uint16_t heartbeat;
    uint32_t mechanism;
} lapin_opening;

/* Takes the frame at the head of the bytes of the broker, writes what is answered to it into out, and how many bytes that is. The pairs are further
 * ones of the client's properties, as the content of a table (name, type, value ..; none: no bytes): they go out as they are, behind what the
 * library tells of itself, and one named product takes the place of its own.
 * DONE: the frame was read, lapin_frame_length(bytes) bytes. PENDING: it isn't there whole; ask again with more. REFUSED: the connection
 * isn't opened; send what was written, and hang up; code is the reply code of the cause, the broker's own where it closed, and 403 where it doesn't
 * offer the mechanism. TOO_LONG: there is no room in out, NOT_IN_GRAMMAR: the user, the password, the virtual host or the pairs are too long, or the
 * pairs are no table's content or have one named capabilities, NO_MEMORY: nothing was done. The pairs are looked at first: with no bytes of the
 * broker PENDING says that they can be told. */
uint32_t lapin_shake(lapin_opening *opening, const void *bytes, size_t length, const char *user, size_t user_length, const char *password,
                     size_t password_length, const char *vhost, size_t vhost_length, const void *pairs, size_t pairs_length, void *out, size_t room,
                     size_t *written, uint16_t *code);

/* Where octets stand in a frame, and how many they are. */
typedef struct {
    size_t at;
    size_t count;
} lapin_range;

/* DONE: *place is where the broker's own properties stand in bytes, at whose head its first frame stands whole: the content of a table, with its
 * product, its version, what it can do .. NOT_IN_GRAMMAR: no such frame stands there, and *place is as it was. */
uint32_t lapin_server_properties(const void *bytes, size_t length, lapin_range *place);

/* The bytes of the frame at the head of bytes, of which there are seven at least. */
static inline size_t lapin_frame_length(const unsigned char *bytes) {
    return ((size_t)bytes[3] << 24 | (size_t)bytes[4] << 16 | (size_t)bytes[5] << 8 | bytes[6]) + 8;
}

/* ---- heartbeats, by the caller's clock. Times are milliseconds; set sent and heard as bytes are sent and heard */

#define LAPIN_HEARTBEAT "\x08\0\0\0\0\0\0\xce" /* 8 bytes */

typedef struct {
    uint64_t sent;
    uint64_t heard;
    uint16_t seconds;
} lapin_clock;

enum { LAPIN_WAIT = 0, LAPIN_SEND = 1, LAPIN_SILENT = 2, LAPIN_NEVER = 3 };

/* WAIT: nothing is due before *wait milliseconds have passed. SEND: a heartbeat is to be sent. SILENT: the broker was silent for more than
 * two intervals, so the connection is lost. NEVER: there are no heartbeats. */
uint32_t lapin_beat(const lapin_clock *clock, uint64_t now, uint64_t *wait);

/* ---- the session */

/* Begins as {NULL, false}. The library alone changes it, and nobody copies it. */
typedef struct {
    void *at;
    bool is_open;
} lapin_handle;

/* Puts a client of a new session into a handle, for a connection that is open; frame_max is that of the opening, at least 4096. Where there
 * is a client in the handle, that one is given up. */
uint32_t lapin_open(lapin_handle *handle, uint32_t frame_max);
/* Ends the client, and closes the handle: every later call answers CLOSED. */
void lapin_close(lapin_handle *handle);

/* Why the session refused something, or why what was awaited won't come. */
enum {
    LAPIN_WHY_NO_MEMORY = 1,        /* there was no memory */
    LAPIN_WHY_NUMBERS_USED_UP = 2,  /* no number is left */
    LAPIN_WHY_CHANNEL_STATE = 3,    /* the state of the channel doesn't allow it: state */
    LAPIN_WHY_PROTOCOL_ERROR = 4,   /* the channel or the connection was closed: code, the reply code; lapin_last_close has the broker's words */
    LAPIN_WHY_CONNECTION_LOST = 5,  /* the connection is gone without a close */
    LAPIN_WHY_UNEXPECTED_FRAME = 6, /* a frame came that isn't received now: class_id and method_id */
    LAPIN_WHY_PRECONDITION = 7,     /* the broker settled a tag that isn't pending: tag, and current, the last one that was taken */
    LAPIN_WHY_ALREADY_TAKEN = 8,    /* the answer was given before, or will not be asked for any more */
    LAPIN_WHY_UNKNOWN = 9,          /* no call, publish or consumer has this number */
    LAPIN_WHY_OUTSTANDING = 10      /* as many publishes wait or are outstanding as the channel's limit allows, of a basic.try-publish: limit */
};

/* Its kind, and the fields that the kind has; the others are 0. A state is a LAPIN_CHANNEL_.. of below. */
typedef struct {
    uint32_t kind;
    uint32_t state;
    uint16_t code;
    uint16_t class_id;
    uint16_t method_id;
    uint64_t tag;
    uint64_t current;
    uint64_t limit;
} lapin_refusal;

/* DONE: *refusal is what the session refused last, or the last error that a reply, an outcome or a delivery was. PENDING: there was none yet.
 * It takes no memory, and stays until the next one. */
uint32_t lapin_why(lapin_handle *handle, lapin_refusal *refusal);

/* How many bytes the answer has, and the answer: all of it where there is room, and else nothing. How many bytes were written. It is that of the
 * last lapin_reply, lapin_delivery, lapin_return_at or lapin_last_close that was DONE, and stays until the next one. */
size_t lapin_answer_length(lapin_handle *handle);
size_t lapin_answer(lapin_handle *handle, void *out, size_t room);

/* ---- calls */

/* Makes the call whose method these bytes are: its class and its number, two bytes each, and its arguments, as in a method's frame. It is each
 * that docs/CALLING.md has but a publish; of channel.close and connection.close (on channel 0) class and method are 0. DONE: it is queued, and
 * *ticket is the number by which its reply is asked for. REFUSED: the session refused it. NOT_IN_GRAMMAR: they are no method, or one that is no
 * call. TOO_LONG: its frame would have more than frame_max bytes. In each case but DONE nothing was done. */
uint32_t lapin_call(lapin_handle *handle, uint16_t channel, const void *method, size_t length, uint64_t *ticket);

/* From now on no more publishes of a channel than that are outstanding, 0 for no limit: further ones wait. The same as of lapin_call. */
uint32_t lapin_limit(lapin_handle *handle, uint16_t channel, uint64_t limit, uint64_t *ticket);

/* A message. The answer is its exchange, its routing key, its list of properties, as a content header has it (the flags, and what they say is
 * there), and its body, one behind the other, each of so many bytes. */
typedef struct {
    uint64_t delivery_tag;
    uint64_t acker;
    size_t exchange;
    size_t routing_key;
    size_t properties;
    size_t body;
    bool redelivered;
} lapin_message;

/* What a reply says. */
enum {
    LAPIN_REPLY_DONE = 0,     /* the call is done */
    LAPIN_REPLY_CHANNEL = 1,  /* the channel is open: number */
    LAPIN_REPLY_CONFIRM = 2,  /* the last frame of a publish has left: number, its confirm's */
    LAPIN_REPLY_CONSUMER = 3, /* a consumer is registered: number; the answer is its tag */
    LAPIN_REPLY_MESSAGE = 4,  /* a get gave a message: message, and messages, how many the queue still has */
    LAPIN_REPLY_EMPTY = 5,    /* the queue of a get was empty */
    LAPIN_REPLY_QUEUE = 6,    /* a queue is declared: messages and consumers; the answer is its name */
    LAPIN_REPLY_COUNT = 7,    /* so many messages were dropped: number */
    LAPIN_REPLY_FLOW = 8,     /* whether the broker goes on: number, 1 or 0 */
    LAPIN_REPLY_YES = 9       /* an acknowledgement has left */
};

/* The fields of a reply; those that a kind has not are 0. */
typedef struct {
    uint64_t number;
    uint32_t kind;
    uint32_t messages;
    uint32_t consumers;
    lapin_message message;
} lapin_fields;

/* The reply of a call, given once. DONE: *fields is what it says. PENDING: there is none yet. REFUSED: the call failed, or, by ALREADY_TAKEN and
 * UNKNOWN, there is no such reply any more or at all. It takes no memory, also of a message (the answer is told from where it lies): NO_MEMORY
 * comes of none that came by lapin_receive. */
uint32_t lapin_reply(lapin_handle *handle, uint64_t ticket, lapin_fields *fields);
/* The reply of a call will not be asked for any more. GONE: it was given, or never will be, and nothing changes. */
uint32_t lapin_forget_call(lapin_handle *handle, uint64_t ticket);

/* ---- publishes and messages */

/* Publishes. The properties are a list as a content header has it: the flags, two bytes or more, and what they say is there; two zeros where
 * there are none. DONE: it is queued, and *confirm is its confirm's number. REFUSED: the session refused it. NOT_IN_GRAMMAR: the exchange or the
 * routing key is no short text, or the list has fewer than two bytes. TOO_LONG: the header's frame would have more than frame_max bytes. In each
 * case but DONE nothing was published. */
uint32_t lapin_publish(lapin_handle *handle, uint16_t channel, const char *exchange, size_t exchange_length, const char *routing_key,
                       size_t routing_key_length, bool mandatory, bool immediate, const void *payload, size_t payload_length,
                       const void *properties, size_t properties_length, uint64_t *confirm);

enum { LAPIN_NONE = 0, LAPIN_ACK = 1, LAPIN_NACK = 2, LAPIN_NOT_REQUESTED = 3, LAPIN_ERROR = 4 };

/* The outcome of a publish, given once: ACK, NACK, NOT_REQUESTED, or ERROR, which lapin_why says. NONE: there is none yet, or its message came
 * back: then lapin_confirmed gives it, or PENDING. */
uint32_t lapin_outcome(lapin_handle *handle, uint64_t confirm);
/* The same of each publish. DONE: *outcome, and what came back is held, for lapin_return_at. PENDING: there is none yet. REFUSED: it was given,
 * or never will be, which lapin_why says. */
uint32_t lapin_confirmed(lapin_handle *handle, uint64_t confirm, uint64_t *outcome);
/* What came back and no outcome has, each message once. DONE: each publish of the channel has its outcome, and the messages, of which there are
 * *count, are held, for lapin_return_at. PENDING: one has none yet. NO_MEMORY: nothing was done. */
uint32_t lapin_unclaimed(lapin_handle *handle, uint16_t channel, uint64_t *count);

/* A message that came back, and why: the reply code. The answer is its exchange, its routing key, its list of properties, its body and, of so many
 * bytes, the broker's text, one behind the other. */
typedef struct {
    uint16_t code;
    size_t text;
    lapin_message message;
} lapin_return;

/* DONE: *found is the message at a place, from 0, of those that are held since the last lapin_confirmed or lapin_unclaimed that was DONE; they are
 * held until another call is that has an answer. PENDING: none is held there. NO_MEMORY: nothing was done, and they are held. */
uint32_t lapin_return_at(lapin_handle *handle, size_t place, lapin_return *found);
/* The outcome of a publish will not be asked for any more. GONE: it was given, or never will be, and nothing changes. */
uint32_t lapin_forget(lapin_handle *handle, uint64_t confirm);

/* What a consumer was handed next. DONE: *message. PENDING: nothing yet. GONE: the consumer's end. REFUSED: an error ended its channel, or, by
 * UNKNOWN, there is no such consumer. It takes no memory, as lapin_reply. */
uint32_t lapin_delivery(lapin_handle *handle, uint64_t consumer, lapin_message *message);

/* DONE: *place is the first place, from this one on, of these consumers, each by its number, at which lapin_delivery would not answer PENDING.
 * PENDING: there is none, and *place is as it was. So nobody needs to ask all. The same of calls by their tickets, and of lapin_reply. */
uint32_t lapin_ready_consumer(lapin_handle *handle, const uint64_t *consumers, size_t count, size_t from, size_t *place);
uint32_t lapin_ready_reply(lapin_handle *handle, const uint64_t *tickets, size_t count, size_t from, size_t *place);

/* Settle a message by its acker, which works once. GONE: it was settled before, or its channel has ended, and nothing is sent. REFUSED: the
 * state of its channel refuses it, and the acker is used up. NO_MEMORY: nothing was done. */
uint32_t lapin_ack(lapin_handle *handle, uint64_t acker, bool multiple);
uint32_t lapin_nack(lapin_handle *handle, uint64_t acker, bool multiple, bool requeue);
uint32_t lapin_reject(lapin_handle *handle, uint64_t acker, bool requeue);

/* ---- bytes out and in */

/* Frames that may leave become bytes: all, or until there are so many; and then what is left of a begun publish and the methods that wait.
 * With flow false no publish begins. NO_MEMORY: some may have, and nothing is lost: call again. TOO_LONG: a frame has more bytes than a frame
 * may have, and is lost, so the client takes nothing further. */
uint32_t lapin_send(lapin_handle *handle, bool flow, size_t enough);
/* How many bytes are to be sent, and these bytes: all of them where there is room, and else none. They are the caller's to send then. */
size_t lapin_leaving_length(lapin_handle *handle);
size_t lapin_leaving(lapin_handle *handle, void *out, size_t room);

/* Takes bytes of the broker, in whatever pieces they come. REFUSED: the session refused a frame, and its close leaves by the next lapin_send;
 * what came behind that frame is handed on by the next call, with no bytes too. NO_MEMORY: the bytes were not kept, and all is as it was: hand
 * them in again. KEPT: they were, and there was no memory for the frame at the head of what came: call again, with no bytes. MALFORMED, TOO_LONG:
 * hang up, and call lapin_lost. Bytes may have to leave afterwards. */
uint32_t lapin_receive(lapin_handle *handle, const void *bytes, size_t length);

/* The connection is gone: nothing leaves any more, and all that is open fails by CONNECTION_LOST. NO_MEMORY: nothing was done. */
uint32_t lapin_lost(lapin_handle *handle);

/* The states of a connection, and of a channel: BASE of channel 0 while the connection is open, DOWN of any while it isn't, CROSSED where both
 * sides close it. */
enum { LAPIN_CONNECTION_OPEN = 0, LAPIN_CONNECTION_CLOSING = 1, LAPIN_CONNECTION_CLOSED = 2, LAPIN_CONNECTION_LOST = 3 };
enum {
    LAPIN_CHANNEL_CLOSED = 0,
    LAPIN_CHANNEL_OPENING = 1,
    LAPIN_CHANNEL_OPEN = 2,
    LAPIN_CHANNEL_CLOSING = 3,
    LAPIN_CHANNEL_CROSSED = 4,
    LAPIN_CHANNEL_BASE = 5,
    LAPIN_CHANNEL_DOWN = 6
};

typedef struct {
    uint32_t connection;
    uint32_t channel;
} lapin_states;

/* The states of the connection and of a channel now. DONE, or CLOSED. */
uint32_t lapin_state(lapin_handle *handle, uint16_t channel, lapin_states *states);

/* What the broker said as it last closed a channel, or the connection (channel 0). The text is the answer (lapin_answer). */
typedef struct {
    uint16_t code;
    uint16_t class_id;
    uint16_t method_id;
} lapin_close_reason;

/* DONE: *reason is its last close, and the answer is its text; it stays after the channel is opened again. PENDING: it has closed none.
 * NO_MEMORY: nothing was done. */
uint32_t lapin_last_close(lapin_handle *handle, uint16_t channel, lapin_close_reason *reason);

/* Whether the broker said last that it takes no messages (connection.blocked). */
bool lapin_is_blocked(lapin_handle *handle);

#ifdef __cplusplus
}
#endif
#endif
