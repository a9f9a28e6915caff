/* Requests to an etcd cluster by its JSON gateway, over a plain socket, and as much of JSON and base64 as they need: keys
 * and values are sent and come in base64, so that no text of ours has a quote in it. */
#ifndef ETCD_POST_H
#define ETCD_POST_H

#include <stddef.h>
#include <stdint.h>

enum { ETCD_TEXT = 128 };

/* A connection to one of the members "host:port,..", and the last response. */
typedef struct {
    const char *members;
    int which, fd;       /* fd: -1 where there is none */
    size_t length, room;
    char *in;            /* the body, ended by 0, in as much room as the longest so far took; etcd_let_go gives it back */
} etcd_connection;

/* ETCD_DONE: what it says stands in `in`; ETCD_REFUSED: the request is wrong, or there is no room, and nothing is
 * done, with the reason there; ETCD_LOST: nobody answered, so it may have been done all the same, and the next member
 * is asked next. */
typedef enum { ETCD_LOST, ETCD_DONE, ETCD_REFUSED } etcd_status;

/* Posts a request to /v3/PATH, connecting where it has to. */
etcd_status etcd_post(etcd_connection *c, const char *path, const char *body);
int etcd_connected(etcd_connection *c);
void etcd_hang_up(etcd_connection *c);
void etcd_let_go(etcd_connection *c);

/* Part of a response. */
typedef struct { const char *from, *to; } etcd_part;

etcd_part etcd_whole(const etcd_connection *c);

/* The i-th response of the transaction whose response this is; empty where there is none. One of a transaction within it
 * counts as the first of those behind. */
etcd_part etcd_response(etcd_part of, int i);

/* The next response of those that are left, one within another as well, which is left no more; empty where there is none. */
etcd_part etcd_next(etcd_part *left);

/* What stands behind "name": there, without its quote, or NULL. */
const char *etcd_field(etcd_part in, const char *name);
uint64_t etcd_number(etcd_part in, const char *name);

/* Base64 of these bytes, four for each three and a 0: ETCD_TEXT has room for 93. And the bytes of one, which ends with a quote: how
 * many. */
const char *etcd_coded(char *to, const void *bytes, size_t count);
size_t etcd_decoded(const char *text, uint8_t *to, size_t room);

#endif
