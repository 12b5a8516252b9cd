#define _GNU_SOURCE
#include "l4_frames.h"
#include <errno.h>
#include <stdlib.h>
#include <string.h>
#include <sys/socket.h>
#include <sys/uio.h>
#include <sys/un.h>
#include <unistd.h>

static uint8_t *p16(uint8_t *p, uint16_t v) {
    v = __builtin_bswap16(v);
    memcpy(p, &v, 2);
    return p + 2;
}

int l4_open(struct l4 *c, const char *path) {
    struct sockaddr_un a = {.sun_family = AF_UNIX};
    memset(c, 0, sizeof *c);
    c->fd = -1;
    if (strlen(path) >= sizeof a.sun_path) {
        errno = ENAMETOOLONG;
        return -1;
    }
    strcpy(a.sun_path, path);
    for (int i = 0; i < 3000; i++) {
        c->fd = socket(AF_UNIX, SOCK_STREAM | SOCK_CLOEXEC, 0);
        if (c->fd < 0)
            return -1;
        if (connect(c->fd, (void *)&a, sizeof a) == 0) {
            c->cap = 8192;
            c->rb = malloc(c->cap);
            return c->rb ? 0 : -1;
        }
        int e = errno;
        close(c->fd);
        c->fd = -1;
        errno = e;
        if (e != EAGAIN && e != ENOENT && e != ECONNREFUSED)
            return -1;
        usleep(1000);
    }
    return -1;
}
void l4_close(struct l4 *c) {
    if (c->fd >= 0)
        close(c->fd);
    free(c->rb);
    c->fd = -1;
    c->rb = NULL;
}

static int wr(int fd, const uint8_t *p, size_t n) {
    while (n) {
        ssize_t k = send(fd, p, n, MSG_NOSIGNAL);
        if (k < 0 && errno == EINTR)
            continue;
        if (k <= 0)
            return -1;
        p += k;
        n -= k;
    }
    return 0;
}
size_t l4_head(uint8_t *b, const struct l4_call *k) {
    unsigned nw = (k->tag & 63) + (k->tag >> 6 & 63), i;
    uint8_t *p = l4_put32(b, (uint32_t)(46 + 8 * nw + 8 * k->nb + k->npayload));
    *p++ = L4_IPC;
    p = l4_put64(p, k->to);
    p = l4_put64(p, k->from);
    p = l4_put32(p, k->timeouts);
    p = l4_put64(p, k->vsender);
    p = l4_put64(p, k->tag);
    p = l4_put64(p, k->acceptor);
    *p++ = k->nb;
    for (i = 0; i < nw && i < 63; i++)
        p = l4_put64(p, k->words[i]);
    for (i = 0; i < k->nb && i < 32; i++)
        p = l4_put64(p, k->bwords[i]);
    return p - b;
}
int l4_send(struct l4 *c, const struct l4_call *k) {
    uint8_t b[900];
    size_t n = l4_head(b, k);
    if (!k->npayload)
        return wr(c->fd, b, n);
    struct iovec io[2] = {{b, n}, {(void *)k->payload, k->npayload}};
    struct msghdr m = {.msg_iov = io, .msg_iovlen = 2};
    ssize_t d = sendmsg(c->fd, &m, MSG_NOSIGNAL);
    if (d < 0 && errno == EINTR)
        d = 0;
    if (d < 0)
        return -1;
    if ((size_t)d < n) {
        if (wr(c->fd, b + d, n - d))
            return -1;
        d = n;
    }
    return wr(c->fd, (const uint8_t *)k->payload + (d - n), k->npayload - (d - n));
}
int l4_read(struct l4 *c, struct l4_frame *f) {
    if (c->used) {
        c->have -= c->used;
        if (c->have)
            memmove(c->rb, c->rb + c->used, c->have);
        c->used = 0;
    }
    size_t need = 4;
    for (;;) {
        if (c->have >= 4) {
            need = 4 + (size_t)l4_get32(c->rb);
            if (need < 5 || need > 4 + 2097152)
                return -2;
            if (c->have >= need)
                break;
            if (need > c->cap) {
                uint8_t *q = realloc(c->rb, need);
                if (!q)
                    return -1;
                c->rb = q;
                c->cap = need;
            }
        }
        ssize_t k = recv(c->fd, c->rb + c->have, c->cap - c->have, 0);
        if (k < 0 && errno == EINTR)
            continue;
        if (k <= 0)
            return -1;
        c->have += k;
    }
    c->used = need;
    const uint8_t *p = c->rb + 4, *end = c->rb + need;
    size_t body = need - 4;
    f->kind = *p++;
    switch (f->kind) {
    case L4_WELCOME:
        if (body != 9)
            return -2;
        f->id = l4_get64(p);
        return 0;
    case L4_EXREGR:
        if (body != 25)
            return -2;
        f->id = l4_get64(p);
        f->control = l4_get64(p + 8);
        f->code = l4_get64(p + 16);
        return 0;
    case L4_REFUSED:
        if (body != 2)
            return -2;
        f->class_ = 'K';
        f->number = *p;
        return 0;
    case L4_FAULT:
        if (body != 3)
            return -2;
        f->class_ = p[0];
        f->number = p[1];
        return 0;
    case L4_IPCR:
        break;
    default:
        return -2;
    }
    if (body < 34)
        return -2;
    f->tag = l4_get64(p);
    f->sender = l4_get64(p + 8);
    f->actual = l4_get64(p + 16);
    f->error = l4_get64(p + 24);
    p += 32;
    f->nwords = (f->tag & 63) + (f->tag >> 6 & 63);
    if (f->nwords > 63 || (size_t)(end - p) < 8u * f->nwords + 1)
        return -2;
    for (unsigned i = 0; i < f->nwords; i++, p += 8)
        f->w[i] = l4_get64(p);
    f->npieces = *p++;
    for (unsigned i = 0; i < f->npieces; i++) {
        if (end - p < 12)
            return -2;
        f->piece[i].ptr = l4_get64(p);
        f->piece[i].len = l4_get32(p + 8);
        f->piece[i].bytes = p += 12;
        if ((size_t)(end - p) < f->piece[i].len)
            return -2;
        p += f->piece[i].len;
    }
    return p == end ? 0 : -2;
}
int l4_hello(struct l4 *c, unsigned number) {
    uint8_t b[7];
    struct l4_frame f;
    p16(l4_put32(b, 3) + 1, number);
    b[4] = L4_HELLO;
    if (wr(c->fd, b, 7))
        return -1;
    int e = l4_read(c, &f);
    if (e)
        return -1;
    if (f.kind == L4_WELCOME) {
        c->id = f.id;
        return 0;
    }
    if (f.kind == L4_REFUSED)
        return f.number;
    return f.kind == L4_FAULT ? -(f.class_ << 8 | f.number) : -1;
}
int l4_ipc(struct l4 *c, const struct l4_call *k, struct l4_frame *f) {
    return l4_send(c, k) ? -1 : l4_read(c, f);
}
int l4_exreg(struct l4 *c, uint64_t dest, uint64_t control, struct l4_frame *f) {
    uint8_t b[21];
    l4_put64(l4_put64(l4_put32(b, 17) + 1, dest), control);
    b[4] = L4_EXREG;
    return wr(c->fd, b, 21) ? -1 : l4_read(c, f);
}
int l4_bye(struct l4 *c) {
    uint8_t b[5] = {0, 0, 0, 1, L4_BYE};
    return wr(c->fd, b, 5);
}
