#include "etcd_post.h"
#include <netdb.h>
#include <netinet/tcp.h>
#include <stdio.h>
#include <stdlib.h>
#include <string.h>
#include <sys/socket.h>
#include <sys/time.h>
#include <unistd.h>

enum { ANSWERS_WITHIN = 3, FIRST_ROOM = 16384, MOST_ROOM = 64 << 20 }; /* seconds; bytes of a response */

static const char sixty_four[] = "ABCDEFGHIJKLMNOPQRSTUVWXYZabcdefghijklmnopqrstuvwxyz0123456789+/";

/* ---- one member */

void etcd_hang_up(etcd_connection *c) {
    if (c->fd >= 0) close(c->fd);
    c->fd = -1;
}

void etcd_let_go(etcd_connection *c) {
    etcd_hang_up(c);
    free(c->in);
    c->in = NULL;
    c->room = 0;
}

/* The host and the port of the member whose turn it is. */
static int member(etcd_connection *c, char host[256], char port[16]) {
    const char *at = c->members;
    for (int i = 0; i < c->which && at; i++) at = strchr(at, ',') ? strchr(at, ',') + 1 : NULL;
    if (!at) c->which = 0;
    return sscanf(at ? at : c->members, "%255[^:]:%15[0-9]", host, port) == 2;
}

int etcd_connected(etcd_connection *c) {
    char host[256], port[16];
    struct addrinfo wanted = {.ai_socktype = SOCK_STREAM}, *found = NULL;
    const struct timeval within = {.tv_sec = ANSWERS_WITHIN};
    const int yes = 1;
    if (c->fd >= 0) return 1;
    if (!member(c, host, port) || getaddrinfo(host, port, &wanted, &found)) return 0;
    c->fd = socket(found->ai_family, SOCK_STREAM | SOCK_CLOEXEC, 0);
    setsockopt(c->fd, IPPROTO_TCP, TCP_NODELAY, &yes, sizeof yes);
    setsockopt(c->fd, SOL_SOCKET, SO_RCVTIMEO, &within, sizeof within);
    setsockopt(c->fd, SOL_SOCKET, SO_SNDTIMEO, &within, sizeof within);
    if (connect(c->fd, found->ai_addr, found->ai_addrlen)) {
        etcd_hang_up(c);
        c->which++;
    }
    freeaddrinfo(found);
    return c->fd >= 0;
}

static int is_sent(int fd, const char *at, size_t bytes) {
    for (ssize_t n; bytes; at += n, bytes -= (size_t)n)
        if ((n = send(fd, at, bytes, MSG_NOSIGNAL)) <= 0) return 0;
    return 1;
}

/* Doubled where it is full. */
static int has_room(etcd_connection *c) {
    if (c->length + 1 < c->room) return 1;
    size_t room = c->room ? 2 * c->room : FIRST_ROOM;
    char *in = room > MOST_ROOM ? NULL : (char *)realloc(c->in, room);
    if (!in) return 0;
    c->in = in;
    c->room = room;
    return 1;
}

static int has_more(etcd_connection *c) {
    if (!has_room(c)) return 0;
    ssize_t n = recv(c->fd, c->in + c->length, c->room - 1 - c->length, 0);
    if (n <= 0) return 0;
    c->in[c->length += (size_t)n] = 0;
    return 1;
}

/* So many bytes are there. */
static int reaches(etcd_connection *c, size_t bytes) {
    while (c->length < bytes)
        if (!has_more(c)) return 0;
    return 1;
}

/* Where the text ends that begins at or behind this place; 0 where it never comes. */
static size_t end_of(etcd_connection *c, size_t from, const char *text) {
    for (;;) {
        const char *at = from <= c->length ? (const char *)memmem(c->in + from, c->length - from, text, strlen(text)) : NULL;
        if (at) return (size_t)(at - c->in) + strlen(text);
        if (!has_more(c)) return 0;
    }
}

/* Of a body in chunks, which begins here, all bytes to the beginning of `in`: each has its size before it, and the last has none. */
static int is_unchunked(etcd_connection *c, size_t at) {
    size_t count = 0;
    for (;;) {
        size_t from = end_of(c, at, "\r\n");
        unsigned long size = from ? strtoul(c->in + at, NULL, 16) : 0;
        if (from && !size && end_of(c, from - 2, "\r\n\r\n")) break; /* after its trailers */
        if (!size || size > MOST_ROOM || !reaches(c, from + size + 2)) return 0;
        memmove(c->in + count, c->in + from, size);
        count += size;
        at = from + size + 2;
    }
    c->in[count] = 0;
    return 1;
}

/* The body of a response at the beginning of `in`; 0 where it never comes whole. */
static int has_body(etcd_connection *c, int *status) {
    c->length = 0;
    if (!has_room(c)) return 0;
    c->in[0] = 0;
    size_t body = end_of(c, 0, "\r\n\r\n");
    if (!body) return 0;
    *status = atoi(c->in + strlen("HTTP/1.1 "));
    const char *length = strcasestr(c->in, "Content-Length: ");
    if (!length || length > c->in + body) return is_unchunked(c, body);
    size_t count = strtoul(length + 16, NULL, 10);
    if (count > MOST_ROOM || !reaches(c, body + count)) return 0;
    memmove(c->in, c->in + body, count);
    c->in[count] = 0;
    return 1;
}

etcd_status etcd_post(etcd_connection *c, const char *path, const char *body) {
    char head[200];
    int status = 0;
    int length = snprintf(head, sizeof head, "POST /v3/%s HTTP/1.1\r\nHost: etcd\r\nContent-Length: %zu\r\n\r\n", path, strlen(body));
    if (!etcd_connected(c)) return ETCD_LOST;
    int is_answered = is_sent(c->fd, head, (size_t)length) && is_sent(c->fd, body, strlen(body)) && has_body(c, &status);
    if (is_answered && status == 200) return ETCD_DONE;
    int is_full = is_answered && strstr(c->in, "database space exceeded"); /* with a status as of one that is away */
    if (is_full || (is_answered && status >= 400 && status < 500)) return ETCD_REFUSED;
    etcd_hang_up(c);
    c->which++;
    return ETCD_LOST;
}

/* ---- what a response says */

etcd_part etcd_whole(const etcd_connection *c) { return (etcd_part){c->in, c->in + strlen(c->in)}; }

static const char *found(etcd_part in, const char *text) {
    return in.from ? (const char *)memmem(in.from, (size_t)(in.to - in.from), text, strlen(text)) : NULL;
}

static const char begins[] = "\"response_";

etcd_part etcd_next(etcd_part *left) {
    const char *at = found(*left, begins);
    left->from = at ? found((etcd_part){at + 1, left->to}, begins) : NULL;
    return (etcd_part){at, left->from ? left->from : left->to};
}

etcd_part etcd_response(etcd_part of, int i) {
    for (const char *at = found(of, "\"responses\":"); at; i--) {
        at = found((etcd_part){at + 1, of.to}, begins);
        if (!at || i) continue;
        const char *next = found((etcd_part){at + 1, of.to}, begins);
        return (etcd_part){at, next ? next : of.to};
    }
    return (etcd_part){NULL, NULL};
}

const char *etcd_field(etcd_part in, const char *name) {
    char quoted[40];
    snprintf(quoted, sizeof quoted, "\"%s\":", name);
    const char *at = found(in, quoted);
    if (!at) return NULL;
    at += strlen(quoted);
    return *at == '"' ? at + 1 : at;
}

uint64_t etcd_number(etcd_part in, const char *name) {
    const char *at = etcd_field(in, name);
    return at ? strtoull(at, NULL, 10) : 0;
}

/* ---- base64 */

const char *etcd_coded(char *to, const void *bytes, size_t count) {
    const uint8_t *b = (const uint8_t *)bytes;
    char *at = to;
    for (size_t i = 0; i < count; i += 3) {
        uint32_t x = (uint32_t)b[i] << 16 | (i + 1 < count ? (uint32_t)b[i + 1] << 8 : 0) | (i + 2 < count ? b[i + 2] : 0);
        *at++ = sixty_four[x >> 18];
        *at++ = sixty_four[x >> 12 & 63];
        *at++ = i + 1 < count ? sixty_four[x >> 6 & 63] : '=';
        *at++ = i + 2 < count ? sixty_four[x & 63] : '=';
    }
    *at = 0;
    return to;
}

/* -1 of what isn't in base64. */
static int digit(char c) {
    if (c >= 'A' && c <= 'Z') return c - 'A';
    if (c >= 'a' && c <= 'z') return c - 'a' + 26;
    if (c >= '0' && c <= '9') return c - '0' + 52;
    return c == '+' ? 62 : c == '/' ? 63 : -1;
}

size_t etcd_decoded(const char *text, uint8_t *to, size_t room) {
    uint32_t x = 0;
    int bits = 0;
    size_t count = 0;
    for (int place; count < room && (place = digit(*text)) >= 0; text++) {
        x = x << 6 | (uint32_t)place;
        if ((bits += 6) < 8) continue;
        bits -= 8;
        to[count++] = (uint8_t)(x >> bits);
    }
    return count;
}
