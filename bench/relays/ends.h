/* One back end = one way to make a call from a client process to a server
   process. load.c does the same works over each of them. */
#ifndef ENDS_H
#define ENDS_H
#include <stddef.h>
#include <stdint.h>

#define MAXEP 512

struct shm { /* shared by all processes of one work */
    volatile int ready_srv, ready_cli, done_cli, failed;
    volatile int64_t t0; /* start, CLOCK_MONOTONIC ns; 0 = not yet */
    volatile uint64_t srvid[MAXEP];
    volatile int64_t finish[MAXEP];
    volatile int64_t count[MAXEP];
    char why[200];
};

struct cfg {
    const char *addr; /* directory with the broker's socket(s) */
    int n_srv, n_cli;
    size_t size; /* 0: one word, else bulk bytes of the request */
    struct shm *sh;
};

struct be {
    const char *name;
    void *(*srv_open)(const struct cfg *, int sid);
    void (*srv_loop)(void *h); /* for ever */
    void *(*cli_open)(const struct cfg *, int cid, int sid);
    /* request: word w, or bulk bytes (which begin with w); answer must be w+1 */
    int (*call)(void *h, uint64_t w, const void *bulk, size_t n, uint64_t *out);
    void *(*idle_open)(const struct cfg *, int k); /* NULL: no broker */
    void (*clean)(const struct cfg *);             /* before and after; may be NULL */
};
extern const struct be BE;

void die(const struct cfg *c, const char *fmt, ...);
int unix_connect(const char *dir, const char *name);
int unix_listen(const char *dir, const char *name);
void read_all(int fd, void *p, size_t n);
void write_all(int fd, const void *p, size_t n);
#endif
