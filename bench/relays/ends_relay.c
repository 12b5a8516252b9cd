/* Ends of the two relays (relay_epoll, relay_threads): header of two 32-bit
   numbers (bytes that follow, other end's id), then the bytes. */
#define _GNU_SOURCE
#include "ends.h"
#include <stdio.h>
#include <stdlib.h>
#include <string.h>
#include <sys/socket.h>
#include <sys/uio.h>

struct h {
    int fd;
    uint32_t peer;
    char *buf;
    size_t cap;
};
static struct h *opn(const struct cfg *c, uint32_t id, uint32_t peer) {
    struct h *h = calloc(1, sizeof *h);
    uint32_t a[2] = {0, id};
    h->fd = unix_connect(c->addr, "relay");
    h->peer = peer;
    h->cap = c->size + 8192;
    h->buf = malloc(h->cap);
    if (h->fd < 0)
        return NULL;
    write_all(h->fd, a, 8);
    read_all(h->fd, a, 8);
    return h;
}
static void *srv_open(const struct cfg *c, int sid) {
    return opn(c, sid + 1, 0);
}
static void *cli_open(const struct cfg *c, int cid, int sid) {
    return opn(c, 1000 + cid, sid + 1);
}
static void *idle_open(const struct cfg *c, int k) {
    return opn(c, k + 1, 0);
}
static void srv_loop(void *v) {
    struct h *h = v;
    size_t have = 0;
    for (;;) {
        uint32_t hd[2];
        size_t need = 8;
        for (;;) {
            if (have >= 8) {
                memcpy(hd, h->buf, 8);
                need = 8 + (size_t)hd[0];
                if (have >= need)
                    break;
            }
            ssize_t k = recv(h->fd, h->buf + have, h->cap - have, 0);
            if (k <= 0)
                return;
            have += k;
        }
        struct {
            uint32_t a[2];
            uint64_t w;
        } r;
        memcpy(&r.w, h->buf + 8, 8);
        r.w++;
        r.a[0] = 8;
        r.a[1] = hd[1];
        have -= need;
        if (have)
            memmove(h->buf, h->buf + need, have);
        write_all(h->fd, &r, 16);
    }
}
static int call(void *v, uint64_t w, const void *bulk, size_t n, uint64_t *out) {
    struct h *h = v;
    struct {
        uint32_t a[2];
        uint64_t w;
    } r = {{n ? n : 8, h->peer}, w};
    if (n) {
        struct iovec io[2] = {{&r, 8}, {(void *)bulk, n}};
        ssize_t k = writev(h->fd, io, 2);
        if (k < 8)
            return -1;
        write_all(h->fd, (const char *)bulk + (k - 8), n - (k - 8));
    } else
        write_all(h->fd, &r, 16);
    read_all(h->fd, &r, 16);
    *out = r.w;
    return 0;
}
const struct be BE = {"relay", srv_open, srv_loop, cli_open, call, idle_open, NULL};
