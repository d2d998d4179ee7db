/* Messages that came back, as the session tells them with the outcome of a publish. */
#ifndef LAPIN_RETURNS_H
#define LAPIN_RETURNS_H

#include "transport.h"

/* So many octets of an answer from here on; they are behind it then. */
static inline lapin_octets lapin_cut(const char **at, size_t length) {
    lapin_octets found = {*at, length};
    *at += length;
    return found;
}

/* Reads the message that came back with the last outcome, if one did: false where its octets can't be had, and then the connection is lost. It lies in
 * the answer, and a zero stands behind its text. */
static inline bool lapin_read_return(lapin_connection *c, lapin_returned *back) {
    lapin_return found;
    uint32_t status = lapin_return_at(&c->session, 0, &found);
    if (status == LAPIN_PENDING) return true;
    const char *at = status == LAPIN_DONE ? lapin_told(c) : NULL;
    if (!at) return lapin_lose(c, "no memory for a message that came back");
    const lapin_message *message = &found.message;
    back->code = found.code;
    back->exchange = lapin_cut(&at, message->exchange), back->routing_key = lapin_cut(&at, message->routing_key);
    back->properties = lapin_cut(&at, message->properties), back->body = lapin_cut(&at, message->body);
    back->text = lapin_cut(&at, found.text);
    return true;
}

/* The outcome of a publish with what came back, where that has a text; NONE where there is none yet. Of ERROR, *why is why. */
static inline uint32_t lapin_whole_outcome(lapin_connection *c, uint64_t confirm, lapin_returned *back, lapin_refusal *why) {
    uint64_t outcome = LAPIN_ERROR;
    memset(back, 0, sizeof *back);
    uint32_t status = lapin_confirmed(&c->session, confirm, &outcome);
    if (status == LAPIN_PENDING) return LAPIN_NONE;
    if (status == LAPIN_ENDED) lapin_lose(c, "the session takes nothing further"), why->kind = LAPIN_WHY_NUMBERS_USED_UP;
    else if (outcome == LAPIN_ERROR) lapin_why(&c->session, why);
    else if (!lapin_read_return(c, back)) why->kind = LAPIN_WHY_NO_MEMORY, outcome = LAPIN_ERROR;
    return (uint32_t)outcome;
}

#endif
