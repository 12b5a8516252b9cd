/* The physical limit: client and server joined by one Unix stream socket.
   A request and an answer are a length (8 bytes) and so many bytes, written
   and read by one system call each where they are small. One client: blocking
   reads. More clients on one server: epoll in the server. */
#define _GNU_SOURCE
#include "ends.h"
#include <stdio.h>
#include <stdlib.h>
#include <string.h>
#include <sys/epoll.h>
#include <sys/socket.h>
#include <sys/uio.h>
#include <unistd.h>

struct h {
    int fd, n;
    char *buf;
    size_t cap;
    const struct cfg *c;
};
static void *srv_open(const struct cfg *c, int sid) {
    static struct h h;
    char nm[32];
    snprintf(nm, sizeof nm, "raw%d", sid);
    h.fd = unix_listen(c->addr, nm);
    h.n = c->n_srv == 1 ? c->n_cli : 1;
    h.cap = c->size + 64;
    h.buf = malloc(h.cap);
    h.c = c;
    return h.fd < 0 ? NULL : &h;
}
static int serve(struct h *h, int fd) {
    ssize_t k = recv(fd, h->buf, h->cap, 0);
    if (k < 16)
        return -1;
    uint64_t len, w;
    memcpy(&len, h->buf, 8);
    if (len + 8 > (uint64_t)k)
        read_all(fd, h->buf + k, len + 8 - k);
    memcpy(&w, h->buf + 8, 8);
    w++;
    uint64_t a[2] = {8, w};
    write_all(fd, a, 16);
    return 0;
}
static void srv_loop(void *v) {
    struct h *h = v;
    int fds[MAXEP];
    for (int i = 0; i < h->n; i++)
        fds[i] = accept(h->fd, NULL, NULL);
    if (h->n == 1) {
        while (!serve(h, fds[0]))
            ;
        return;
    }
    int ep = epoll_create1(0);
    struct epoll_event e, ev[64];
    for (int i = 0; i < h->n; i++) {
        e.events = EPOLLIN;
        e.data.fd = fds[i];
        epoll_ctl(ep, EPOLL_CTL_ADD, fds[i], &e);
    }
    for (;;) {
        int k = epoll_wait(ep, ev, 64, -1);
        for (int i = 0; i < k; i++)
            if (serve(h, ev[i].data.fd))
                return;
    }
}
static void *cli_open(const struct cfg *c, int cid, int sid) {
    (void)cid;
    static int fd;
    char nm[32];
    snprintf(nm, sizeof nm, "raw%d", sid);
    fd = unix_connect(c->addr, nm);
    return fd < 0 ? NULL : &fd;
}
static int call(void *v, uint64_t w, const void *bulk, size_t n, uint64_t *out) {
    int fd = *(int *)v;
    uint64_t a[2] = {n ? n : 8, w};
    if (n) {
        struct iovec io[2] = {{a, 8}, {(void *)bulk, n}};
        ssize_t k = writev(fd, io, 2);
        if (k < 8)
            return -1;
        write_all(fd, (const char *)bulk + (k - 8), n - (k - 8));
    } else
        write_all(fd, a, 16);
    read_all(fd, a, 16);
    *out = a[1];
    return 0;
}
const struct be BE = {"raw", srv_open, srv_loop, cli_open, call, NULL, NULL};
