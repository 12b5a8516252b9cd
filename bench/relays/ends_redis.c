/* Redis lists over a Unix socket: request by RPUSH to the server's list, answer
   by RPUSH to the client's list, both waited for by BLPOP. RPUSH and the BLPOP
   after it go out in one write. */
#define _GNU_SOURCE
#include "ends.h"
#include <hiredis/hiredis.h>
#include <stdio.h>
#include <stdlib.h>
#include <string.h>
struct h {
    redisContext *r;
    char me[24], peer[24];
    uint32_t cid;
    char *buf;
};
static struct h *opn(const struct cfg *c) {
    struct h *h = calloc(1, sizeof *h);
    char a[256];
    snprintf(a, sizeof a, "%s/redis.sock", c->addr);
    h->r = redisConnectUnix(a);
    h->buf = malloc(c->size + 64);
    return !h->r || h->r->err ? NULL : h;
}
static void *srv_open(const struct cfg *c, int sid) {
    struct h *h = opn(c);
    if (h)
        snprintf(h->me, sizeof h->me, "s%d", sid);
    return h;
}
static void *cli_open(const struct cfg *c, int cid, int sid) {
    struct h *h = opn(c);
    if (h) {
        h->cid = cid;
        snprintf(h->me, sizeof h->me, "c%d", cid);
        snprintf(h->peer, sizeof h->peer, "s%d", sid);
    }
    return h;
}
static void *idle_open(const struct cfg *c, int k) {
    (void)k;
    struct h *h = opn(c);
    if (h) {
        redisReply *r = redisCommand(h->r, "PING");
        if (!r)
            return NULL;
        freeReplyObject(r);
    }
    return h;
}
static redisReply *pop(struct h *h) {
    redisReply *r = NULL;
    if (redisGetReply(h->r, (void **)&r) || r->type != REDIS_REPLY_ARRAY || r->elements != 2)
        return NULL;
    return r;
}
static void srv_loop(void *v) {
    struct h *h = v;
    redisReply *r;
    int first = 1;
    for (;;) {
        redisAppendCommand(h->r, "BLPOP %s 0", h->me);
        if (!first) {
            if (redisGetReply(h->r, (void **)&r))
                return;
            freeReplyObject(r);
        }
        first = 0;
        if (!(r = pop(h)))
            return;
        uint32_t cid;
        uint64_t w;
        memcpy(&cid, r->element[1]->str, 4);
        memcpy(&w, r->element[1]->str + 4, 8);
        w++;
        freeReplyObject(r);
        redisAppendCommand(h->r, "RPUSH c%d %b", cid, &w, (size_t)8);
    }
}
static int call(void *v, uint64_t w, const void *bulk, size_t n, uint64_t *out) {
    struct h *h = v;
    redisReply *r;
    memcpy(h->buf, &h->cid, 4);
    if (bulk)
        memcpy(h->buf + 4, bulk, n);
    else
        memcpy(h->buf + 4, &w, n = 8);
    redisAppendCommand(h->r, "RPUSH %s %b", h->peer, h->buf, n + 4);
    redisAppendCommand(h->r, "BLPOP %s 0", h->me);
    if (redisGetReply(h->r, (void **)&r))
        return -1;
    freeReplyObject(r);
    if (!(r = pop(h)))
        return -1;
    memcpy(out, r->element[1]->str, 8);
    freeReplyObject(r);
    return 0;
}
const struct be BE = {"redis", srv_open, srv_loop, cli_open, call, idle_open, NULL};
