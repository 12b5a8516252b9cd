/* Two-hop limit, one thread: epoll, whole frames are passed on with one write. */
#define _GNU_SOURCE
#include <errno.h>
#include <fcntl.h>
#include <stdint.h>
#include <stdio.h>
#include <stdlib.h>
#include <string.h>
#include <sys/epoll.h>
#include <sys/resource.h>
#include <sys/socket.h>
#include <sys/un.h>
#include <unistd.h>
#define MAXFD 4096
struct conn {
    int fd;
    uint32_t id;
    char *in;
    size_t have, cap;
    char *out;
    size_t olen, ooff, ocap;
};
static struct conn *by_fd[MAXFD];
static struct conn *by_id[4096];
static int ep;
static void arm(struct conn *c, int w) {
    struct epoll_event e = {EPOLLIN | (w ? EPOLLOUT : 0), {.fd = c->fd}};
    epoll_ctl(ep, EPOLL_CTL_MOD, c->fd, &e);
}
static void flush_out(struct conn *c) {
    while (c->ooff < c->olen) {
        ssize_t k = send(c->fd, c->out + c->ooff, c->olen - c->ooff, MSG_NOSIGNAL);
        if (k <= 0)
            break;
        c->ooff += k;
    }
    if (c->ooff == c->olen) {
        c->ooff = c->olen = 0;
        arm(c, 0);
    }
}
static void put(struct conn *c, const char *p, size_t n) {
    if (c->olen == 0) {
        ssize_t k = send(c->fd, p, n, MSG_NOSIGNAL);
        if (k < 0) {
            if (errno != EAGAIN)
                return;
            k = 0;
        }
        p += k;
        n -= k;
        if (!n)
            return;
        arm(c, 1);
    }
    if (c->olen + n > c->ocap) {
        c->ocap = (c->olen + n) * 2;
        c->out = realloc(c->out, c->ocap);
    }
    memcpy(c->out + c->olen, p, n);
    c->olen += n;
}
static void drop(struct conn *c) {
    by_fd[c->fd] = NULL;
    if (by_id[c->id & 4095] == c)
        by_id[c->id & 4095] = NULL;
    close(c->fd);
    free(c->in);
    free(c->out);
    free(c);
}
int main(int argc, char **argv) {
    struct sockaddr_un a = {.sun_family = AF_UNIX};
    snprintf(a.sun_path, sizeof a.sun_path, "%s/relay", argc > 1 ? argv[1] : ".");
    struct rlimit rl = {4000, 4000};
    setrlimit(RLIMIT_NOFILE, &rl);
    int l = socket(AF_UNIX, SOCK_STREAM | SOCK_NONBLOCK, 0);
    unlink(a.sun_path);
    if (bind(l, (void *)&a, sizeof a) || listen(l, 512)) {
        perror("relay");
        return 1;
    }
    ep = epoll_create1(0);
    struct epoll_event e = {EPOLLIN, {.fd = l}}, ev[64];
    epoll_ctl(ep, EPOLL_CTL_ADD, l, &e);
    puts("listening");
    fflush(stdout);
    for (;;) {
        int n = epoll_wait(ep, ev, 64, -1);
        for (int i = 0; i < n; i++) {
            int fd = ev[i].data.fd;
            if (fd == l) {
                int f;
                while ((f = accept4(l, NULL, NULL, SOCK_NONBLOCK)) >= 0 && f < MAXFD) {
                    struct conn *c = calloc(1, sizeof *c);
                    c->fd = f;
                    c->cap = 512;
                    c->in = malloc(c->cap);
                    by_fd[f] = c;
                    e.events = EPOLLIN;
                    e.data.fd = f;
                    epoll_ctl(ep, EPOLL_CTL_ADD, f, &e);
                }
                continue;
            }
            struct conn *c = by_fd[fd];
            if (!c)
                continue;
            if (ev[i].events & EPOLLOUT)
                flush_out(c);
            if (!(ev[i].events & (EPOLLIN | EPOLLHUP | EPOLLERR)))
                continue;
            ssize_t k = recv(fd, c->in + c->have, c->cap - c->have, 0);
            if (k <= 0) {
                if (k < 0 && errno == EAGAIN)
                    continue;
                drop(c);
                continue;
            }
            c->have += k;
            size_t at = 0;
            while (c->have - at >= 8) {
                uint32_t h[2];
                memcpy(h, c->in + at, 8);
                size_t need = 8 + (size_t)h[0];
                if (need > (8u << 20)) {
                    drop(c);
                    c = NULL;
                    break;
                }
                if (need > c->cap) {
                    if (at)
                        memmove(c->in, c->in + at, c->have -= at);
                    at = 0;
                    c->cap = need;
                    c->in = realloc(c->in, c->cap);
                    break;
                }
                if (c->have - at < need)
                    break;
                if (h[0] == 0) {
                    c->id = h[1];
                    by_id[h[1] & 4095] = c;
                    put(c, c->in + at, 8);
                } else {
                    struct conn *t = by_id[h[1] & 4095];
                    memcpy(c->in + at + 4, &c->id, 4);
                    if (t)
                        put(t, c->in + at, need);
                }
                at += need;
            }
            if (c && at) {
                c->have -= at;
                if (c->have)
                    memmove(c->in, c->in + at, c->have);
            }
        }
    }
}
