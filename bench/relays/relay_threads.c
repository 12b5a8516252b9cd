/* Two-hop limit in l4d's shape: a reader and a writer thread per connection,
   blocking reads and writes, ONE global mutex; the reader hands a frame to the
   writer of the other end by a list and a condition variable (one for each
   connection; argument 2 "all": one for all, woken by broadcast). */
#define _GNU_SOURCE
#include <pthread.h>
#include <stdint.h>
#include <stdio.h>
#include <stdlib.h>
#include <string.h>
#include <sys/resource.h>
#include <sys/socket.h>
#include <sys/un.h>
#include <unistd.h>
struct msg {
    struct msg *next;
    size_t n;
    char b[];
};
struct conn {
    int fd;
    uint32_t id;
    struct msg *head, **tail;
    pthread_cond_t cv;
    int gone, refs;
};
static pthread_mutex_t L = PTHREAD_MUTEX_INITIALIZER;
static pthread_cond_t ALL = PTHREAD_COND_INITIALIZER;
static struct conn *by_id[4096];
static int all;
static void wake(struct conn *c) {
    if (all)
        pthread_cond_broadcast(&ALL);
    else
        pthread_cond_signal(&c->cv);
}
static void unref(struct conn *c) {
    if (--c->refs == 0) {
        close(c->fd);
        while (c->head) {
            struct msg *m = c->head;
            c->head = m->next;
            free(m);
        }
        free(c);
    }
}
static void *writer(void *v) {
    struct conn *c = v;
    pthread_mutex_lock(&L);
    for (;;) {
        while (!c->head && !c->gone)
            pthread_cond_wait(all ? &ALL : &c->cv, &L);
        if (c->gone)
            break;
        struct msg *m = c->head;
        c->head = m->next;
        if (!c->head)
            c->tail = &c->head;
        pthread_mutex_unlock(&L);
        size_t at = 0;
        while (at < m->n) {
            ssize_t k = send(c->fd, m->b + at, m->n - at, MSG_NOSIGNAL);
            if (k <= 0)
                break;
            at += k;
        }
        int bad = at < m->n;
        free(m);
        pthread_mutex_lock(&L);
        if (bad)
            break;
    }
    shutdown(c->fd, SHUT_RDWR);
    unref(c);
    pthread_mutex_unlock(&L);
    return NULL;
}
static void *reader(void *v) {
    struct conn *c = v;
    char b[8192];
    size_t have = 0;
    for (;;) {
        ssize_t k = recv(c->fd, b + have, sizeof b - have, 0);
        if (k <= 0)
            break;
        have += k;
        size_t at = 0;
        int bad = 0;
        while (have - at >= 8) {
            uint32_t h[2];
            memcpy(h, b + at, 8);
            size_t need = 8 + (size_t)h[0];
            if (need > (8u << 20)) {
                bad = 1;
                break;
            }
            if (have - at < need && need <= sizeof b)
                break;
            struct msg *m = malloc(sizeof *m + need);
            m->n = need;
            m->next = NULL;
            size_t got = have - at < need ? have - at : need;
            memcpy(m->b, b + at, got);
            at += got;
            while (got < need) {
                k = recv(c->fd, m->b + got, need - got, 0);
                if (k <= 0) {
                    bad = 1;
                    break;
                }
                got += k;
            }
            if (bad) {
                free(m);
                break;
            }
            pthread_mutex_lock(&L);
            struct conn *t;
            if (h[0] == 0) {
                c->id = h[1];
                by_id[h[1] & 4095] = c;
                t = c;
            } else {
                t = by_id[h[1] & 4095];
                memcpy(m->b + 4, &c->id, 4);
            }
            if (t && !t->gone) {
                *t->tail = m;
                t->tail = &m->next;
                wake(t);
                m = NULL;
            }
            pthread_mutex_unlock(&L);
            free(m);
        }
        if (bad)
            break;
        have -= at;
        if (have && at)
            memmove(b, b + at, have);
    }
    pthread_mutex_lock(&L);
    c->gone = 1;
    if (by_id[c->id & 4095] == c)
        by_id[c->id & 4095] = NULL;
    wake(c);
    unref(c);
    pthread_mutex_unlock(&L);
    return NULL;
}
int main(int argc, char **argv) {
    struct sockaddr_un a = {.sun_family = AF_UNIX};
    snprintf(a.sun_path, sizeof a.sun_path, "%s/relay", argc > 1 ? argv[1] : ".");
    all = argc > 2 && !strcmp(argv[2], "all");
    struct rlimit rl = {4000, 4000};
    setrlimit(RLIMIT_NOFILE, &rl);
    int l = socket(AF_UNIX, SOCK_STREAM, 0);
    unlink(a.sun_path);
    if (bind(l, (void *)&a, sizeof a) || listen(l, 512)) {
        perror("relay");
        return 1;
    }
    puts("listening");
    fflush(stdout);
    pthread_attr_t at;
    pthread_attr_init(&at);
    pthread_attr_setdetachstate(&at, PTHREAD_CREATE_DETACHED);
    for (int f; (f = accept(l, NULL, NULL)) >= 0;) {
        struct conn *c = calloc(1, sizeof *c);
        c->fd = f;
        c->tail = &c->head;
        c->refs = 2;
        pthread_cond_init(&c->cv, NULL);
        pthread_t t;
        if (pthread_create(&t, &at, reader, c) || pthread_create(&t, &at, writer, c)) {
            perror("thread");
            return 1;
        }
    }
}
