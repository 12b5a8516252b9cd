/* l4d: DIR/space1. Servers are threads 1 to 100, clients from 101
   on. A client calls (send, then closed receive, never and never), a server
   replies and waits (zero send timeout, then anythread). Bulk is one string. */
#define _GNU_SOURCE
#include "ends.h"
#include "l4_frames.h"
#include <stdio.h>
#include <stdlib.h>
#include <string.h>

struct h {
    struct l4 c;
    uint64_t peer;
    const struct cfg *cfg;
    struct l4_frame f;
};
static struct h *opn(const struct cfg *c, unsigned number) {
    struct h *h = calloc(1, sizeof *h);
    char p[256];
    snprintf(p, sizeof p, "%s/space1", c->addr);
    h->cfg = c;
    if (l4_open(&h->c, p))
        return NULL;
    int e = l4_hello(&h->c, number);
    if (e) {
        if (c->sh)
            die(c, "HELLO %u: %d", number, e);
        return NULL;
    }
    return h;
}
static void bad(struct h *h, const char *who, int e) {
    if (e)
        die(h->cfg, "%s: read %d", who, e);
    if (h->f.kind != L4_IPCR)
        die(h->cfg, "%s: frame kind 0x%x class %c number %d", who, h->f.kind, h->f.class_ ? h->f.class_ : '-',
            h->f.number);
    if (h->f.tag & L4_E)
        die(h->cfg, "%s: IPC error 0x%llx", who, (long long)h->f.error);
}
static void *srv_open(const struct cfg *c, int sid) {
    struct h *h = opn(c, sid + 1);
    if (h)
        c->sh->srvid[sid] = h->c.id;
    return h;
}
static void *cli_open(const struct cfg *c, int cid, int sid) {
    struct h *h = opn(c, 101 + cid);
    if (h)
        h->peer = c->sh->srvid[sid];
    return h;
}
static void *idle_open(const struct cfg *c, int k) {
    return opn(c, k + 1);
}
static void srv_loop(void *v) {
    struct h *h = v;
    uint64_t w, br[2] = {L4_STR(h->cfg->size), 0x1000};
    struct l4_call k = {.to = L4_NIL, .from = L4_ANY, .timeouts = L4_TMO(L4_ZERO, L4_NEVER), .words = &w};
    if (h->cfg->size) {
        k.acceptor = 1;
        k.nb = 2;
        k.bwords = br;
    }
    for (;;) {
        int e = l4_ipc(&h->c, &k, &h->f);
        if (e || h->f.kind != L4_IPCR || h->f.tag & L4_E)
            bad(h, "server", e);
        if (h->cfg->size) {
            if (h->f.npieces != 1 || h->f.piece[0].len != h->cfg->size)
                die(h->cfg, "server: wrong pieces");
            memcpy(&w, h->f.piece[0].bytes, 8);
        } else
            w = h->f.w[0];
        w++;
        k.to = h->f.sender;
        k.tag = L4_TAG(1, 0);
    }
}
static int call(void *v, uint64_t w, const void *bulk, size_t n, uint64_t *out) {
    struct h *h = v;
    uint64_t sw[2] = {w, 0};
    struct l4_call k = {
        .to = h->peer, .from = h->peer, .timeouts = L4_TMO(L4_NEVER, L4_NEVER), .tag = L4_TAG(1, 0), .words = sw};
    if (bulk) {
        sw[0] = L4_STR(n);
        k.tag = L4_TAG(0, 2);
        k.payload = bulk;
        k.npayload = n;
    }
    int e = l4_ipc(&h->c, &k, &h->f);
    if (e || h->f.kind != L4_IPCR || h->f.tag & L4_E)
        bad(h, "client", e);
    *out = h->f.w[0];
    return 0;
}
const struct be BE = {"l4d", srv_open, srv_loop, cli_open, call, idle_open, NULL};
