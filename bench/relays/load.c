/* Load driver. One process per client and per server, all forked from here.
   Prints one JSON line. See bench/README.md. */
#define _GNU_SOURCE
#include "ends.h"
#include <errno.h>
#include <sched.h>
#include <signal.h>
#include <stdarg.h>
#include <stdio.h>
#include <stdlib.h>
#include <string.h>
#include <sys/mman.h>
#include <sys/prctl.h>
#include <sys/resource.h>
#include <sys/socket.h>
#include <sys/un.h>
#include <sys/wait.h>
#include <time.h>
#include <unistd.h>

static pid_t kids[2 * MAXEP];
static int nkids;
static struct shm *sh;
static int64_t *lat; /* lat work: ns of each call */

static int64_t now_ns(void) {
    struct timespec t;
    clock_gettime(CLOCK_MONOTONIC, &t);
    return t.tv_sec * 1000000000LL + t.tv_nsec;
}
static void nap_us(long us) {
    struct timespec t = {us / 1000000, us % 1000000 * 1000};
    nanosleep(&t, NULL);
}

void die(const struct cfg *c, const char *fmt, ...) {
    char b[200];
    va_list ap;
    va_start(ap, fmt);
    vsnprintf(b, sizeof b, fmt, ap);
    va_end(ap);
    if (c && c->sh && !__sync_lock_test_and_set(&c->sh->failed, 1))
        snprintf(c->sh->why, sizeof c->sh->why, "%s", b);
    _exit(3);
}
static struct sockaddr_un ua(const char *dir, const char *name) {
    struct sockaddr_un a;
    memset(&a, 0, sizeof a);
    a.sun_family = AF_UNIX;
    snprintf(a.sun_path, sizeof a.sun_path, "%s/%s", dir, name);
    return a;
}
int unix_connect(const char *dir, const char *name) {
    struct sockaddr_un a = ua(dir, name);
    for (int i = 0; i < 2000; i++) {
        int fd = socket(AF_UNIX, SOCK_STREAM | SOCK_CLOEXEC, 0);
        if (fd < 0)
            return -1;
        if (connect(fd, (void *)&a, sizeof a) == 0)
            return fd;
        int e = errno;
        close(fd);
        if (e != EAGAIN && e != ECONNREFUSED && e != ENOENT)
            return -1;
        nap_us(1000);
    }
    return -1;
}
int unix_listen(const char *dir, const char *name) {
    struct sockaddr_un a = ua(dir, name);
    unlink(a.sun_path);
    int fd = socket(AF_UNIX, SOCK_STREAM | SOCK_CLOEXEC, 0);
    if (fd < 0 || bind(fd, (void *)&a, sizeof a) || listen(fd, 512))
        return -1;
    return fd;
}
void read_all(int fd, void *p, size_t n) {
    char *q = p;
    while (n) {
        ssize_t k = recv(fd, q, n, 0);
        if (k < 0 && errno == EINTR)
            continue;
        if (k <= 0)
            die(NULL, "read");
        q += k;
        n -= k;
    }
}
void write_all(int fd, const void *p, size_t n) {
    const char *q = p;
    while (n) {
        ssize_t k = send(fd, q, n, MSG_NOSIGNAL);
        if (k < 0 && errno == EINTR)
            continue;
        if (k <= 0)
            die(NULL, "write");
        q += k;
        n -= k;
    }
}
static pid_t spawn(void) {
    pid_t p = fork();
    if (p < 0) {
        perror("fork");
        exit(1);
    }
    if (p == 0) {
        prctl(PR_SET_PDEATHSIG, SIGKILL);
        return 0;
    }
    kids[nkids++] = p;
    return p;
}
static void reap(void) {
    for (int i = 0; i < nkids; i++)
        kill(kids[i], SIGKILL); /* only our own children */
    for (int i = 0; i < nkids; i++)
        waitpid(kids[i], NULL, 0);
    nkids = 0;
    if (BE.clean)
        BE.clean(NULL);
}
static int64_t cpu_ns(pid_t p) {
    clockid_t c;
    struct timespec t;
    if (!p || clock_getcpuclockid(p, &c) || clock_gettime(c, &t))
        return 0;
    return t.tv_sec * 1000000000LL + t.tv_nsec;
}
static long kb_of(pid_t p, const char *file, const char *key) {
    char f[64], l[256];
    long v = -1;
    snprintf(f, sizeof f, "/proc/%d/%s", p, file);
    FILE *h = fopen(f, "r");
    if (!h)
        return -1;
    while (fgets(l, sizeof l, h))
        if (!strncmp(l, key, strlen(key))) {
            v = atol(l + strlen(key));
            break;
        }
    fclose(h);
    return v;
}
static int cmp(const void *a, const void *b) {
    int64_t x = *(int64_t *)a, y = *(int64_t *)b;
    return x < y ? -1 : x > y;
}
static int wait_for(volatile int *v, int want, double secs) {
    int64_t end = now_ns() + (int64_t)(secs * 1e9);
    while (*v < want) {
        if (sh->failed || now_ns() > end)
            return -1;
        nap_us(500);
    }
    return 0;
}
static void out_fail(const char *w, int n, const char *why) {
    printf("{\"be\":\"%s\",\"work\":\"%s\",\"n\":%d,\"ok\":false,\"why\":\"%s\"}\n", BE.name, w, n, why);
    fflush(stdout);
    reap();
    exit(1);
}

int main(int argc, char **argv) {
    const char *addr = ".", *work = "lat";
    int n = 1, pin = -1;
    double secs = 0.7;
    long cap = 100000, warm = 300;
    size_t size = 0;
    pid_t bp = 0;
    for (int i = 1; i + 1 < argc; i += 2) {
        char *k = argv[i], *v = argv[i + 1];
        if (!strcmp(k, "--addr"))
            addr = v;
        else if (!strcmp(k, "--work"))
            work = v;
        else if (!strcmp(k, "--n"))
            n = atoi(v);
        else if (!strcmp(k, "--secs"))
            secs = atof(v);
        else if (!strcmp(k, "--cap"))
            cap = atol(v);
        else if (!strcmp(k, "--warm"))
            warm = atol(v);
        else if (!strcmp(k, "--size"))
            size = strtoul(v, 0, 0);
        else if (!strcmp(k, "--broker-pid"))
            bp = atoi(v);
        else if (!strcmp(k, "--pin"))
            pin = atoi(v);
        else {
            fprintf(stderr, "bad option %s\n", k);
            return 2;
        }
    }
    signal(SIGPIPE, SIG_IGN);
    struct rlimit rl = {20000, 20000};
    setrlimit(RLIMIT_NOFILE, &rl);
    if (pin >= 0) {
        cpu_set_t s;
        CPU_ZERO(&s);
        CPU_SET(pin, &s);
        sched_setaffinity(0, sizeof s, &s);
    }
    sh = mmap(NULL, sizeof *sh, PROT_READ | PROT_WRITE, MAP_SHARED | MAP_ANONYMOUS, -1, 0);
    lat = mmap(NULL, (size_t)(cap + 16) * 8, PROT_READ | PROT_WRITE, MAP_SHARED | MAP_ANONYMOUS, -1, 0);
    int fan = !strcmp(work, "fanin"), islat = !strcmp(work, "lat") || !strcmp(work, "lat1cpu"),
        bulk = !strcmp(work, "bulk");
    struct cfg c = {addr, fan ? 1 : n, n, bulk ? (size ? size : 1u << 20) : 0, sh};

    if (!strcmp(work, "idle")) {
        if (!BE.idle_open || !bp) {
            printf("{\"be\":\"%s\",\"work\":\"idle\",\"n\":%d,\"ok\":true,\"na\":true}\n", BE.name, n);
            return 0;
        }
        long r0 = kb_of(bp, "smaps_rollup", "Rss:"), p0 = kb_of(bp, "smaps_rollup", "Pss:"),
             a0 = kb_of(bp, "smaps_rollup", "Anonymous:");
        pid_t k = spawn();
        if (k == 0) {
            for (int i = 0; i < n; i++) {
                if (!BE.idle_open(&c, i))
                    die(&c, "idle connection %d", i);
                sh->ready_cli = i + 1;
            }
            for (;;)
                pause();
        }
        if (wait_for(&sh->ready_cli, n, 30))
            out_fail(work, n, sh->failed ? sh->why : "idle connections: too slow");
        nap_us(300000);
        long r1 = kb_of(bp, "smaps_rollup", "Rss:"), p1 = kb_of(bp, "smaps_rollup", "Pss:"),
             a1 = kb_of(bp, "smaps_rollup", "Anonymous:");
        long th = kb_of(bp, "status", "Threads:");
        int64_t c0 = cpu_ns(bp), t = now_ns();
        nap_us(1000000);
        c0 = cpu_ns(bp) - c0;
        t = now_ns() - t;
        printf("{\"be\":\"%s\",\"work\":\"idle\",\"n\":%d,\"ok\":true,\"rss_kb\":%ld,\"pss_kb\":%ld,\"anon_kb\":%ld,"
               "\"rss0_kb\":%ld,\"pss0_kb\":%ld,\"anon0_kb\":%ld,\"kb_per_conn\":%.2f,\"threads\":%ld,\"idle_cpu_pct\":"
               "%.3f}\n",
               BE.name, n, r1, p1, a1, r0, p0, a0, (double)(a1 - a0) / n, th, 100.0 * c0 / t);
        reap();
        return 0;
    }

    if (BE.clean)
        BE.clean(&c);
    for (int s = 0; s < c.n_srv; s++)
        if (spawn() == 0) {
            void *h = BE.srv_open(&c, s);
            if (!h)
                die(&c, "server %d cannot open", s);
            __sync_fetch_and_add(&sh->ready_srv, 1);
            BE.srv_loop(h);
            die(&c, "server %d left its loop", s);
        }
    if (wait_for(&sh->ready_srv, c.n_srv, 20))
        out_fail(work, n, sh->failed ? sh->why : "servers: too slow");
    long mycap = cap / n, mywarm = warm / n + 3;
    if (bulk) {
        mywarm = 3;
    }
    for (int k = 0; k < c.n_cli; k++)
        if (spawn() == 0) {
            void *h = BE.cli_open(&c, k, fan ? 0 : k);
            char *buf = NULL;
            uint64_t o, w = (uint64_t)k << 32;
            if (!h)
                die(&c, "client %d cannot open", k);
            if (c.size) {
                buf = malloc(c.size);
                memset(buf, 0x5a, c.size);
            }
#define CALL()                                                                                                         \
    do {                                                                                                               \
        w++;                                                                                                           \
        if (buf)                                                                                                       \
            memcpy(buf, &w, 8);                                                                                        \
        if (BE.call(h, w, buf, c.size, &o))                                                                            \
            die(&c, "client %d: call failed", k);                                                                      \
        if (o != w + 1)                                                                                                \
            die(&c, "client %d: wrong answer %llx for %llx", k, (long long)o, (long long)w);                           \
    } while (0)
            for (long i = 0; i < mywarm; i++)
                CALL();
            __sync_fetch_and_add(&sh->ready_cli, 1);
            while (!sh->t0)
                nap_us(500);
            int64_t t0 = sh->t0, end = t0 + (int64_t)(secs * 1e9), t;
            struct timespec at = {t0 / 1000000000LL, t0 % 1000000000LL};
            clock_nanosleep(CLOCK_MONOTONIC, TIMER_ABSTIME, &at, NULL);
            long i = 0;
            if (islat) {
                int64_t a = now_ns();
                while (i < mycap) {
                    CALL();
                    t = now_ns();
                    lat[i++] = t - a;
                    a = t;
                    if (t > end)
                        break;
                }
            } else
                while (i < mycap) {
                    CALL();
                    i++;
                    t = now_ns();
                    if (t > end)
                        break;
                }
            sh->finish[k] = now_ns();
            sh->count[k] = i;
            __sync_fetch_and_add(&sh->done_cli, 1);
            for (;;)
                pause(); /* stay, so that no hang-up disturbs others */
        }
    if (wait_for(&sh->ready_cli, c.n_cli, 30))
        out_fail(work, n, sh->failed ? sh->why : "clients: too slow");
    long g0 = bp ? kb_of(bp, "smaps_rollup", "Rss:") : 0;
    int64_t t0 = now_ns() + 20000000LL;
    sh->t0 = t0;
    struct timespec at = {t0 / 1000000000LL, t0 % 1000000000LL};
    clock_nanosleep(CLOCK_MONOTONIC, TIMER_ABSTIME, &at, NULL);
    int64_t c0 = cpu_ns(bp), k0 = 0, k1 = 0;
    for (int i = 0; i < nkids; i++)
        k0 += cpu_ns(kids[i]);
    if (wait_for(&sh->done_cli, c.n_cli, secs + 20))
        out_fail(work, n, sh->failed ? sh->why : "clients: not done in time");
    int64_t c1 = cpu_ns(bp), last = 0, tot = 0, mn = 1LL << 60;
    for (int i = 0; i < nkids; i++)
        k1 += cpu_ns(kids[i]);
    for (int k = 0; k < n; k++) {
        if (sh->finish[k] > last)
            last = sh->finish[k];
        tot += sh->count[k];
        if (sh->count[k] < mn)
            mn = sh->count[k];
    }
    double el = (last - t0) / 1e9;
    printf("{\"be\":\"%s\",\"work\":\"%s\",\"n\":%d,\"ok\":true,\"calls\":%lld,\"secs\":%.4f,\"calls_s\":%.1f,\"min_"
           "over_mean\":%.3f,\"end_cpu_us\":%.3f",
           BE.name, work, n, (long long)tot, el, tot / el, (double)mn * n / tot, (k1 - k0) / 1e3 / tot);
    if (bp) {
        long g1 = kb_of(bp, "smaps_rollup", "Rss:");
        printf(",\"broker_cpu_us\":%.3f,\"broker_rss_kb\":%ld,\"broker_grow_b\":%.1f", (c1 - c0) / 1e3 / tot, g1,
               (g1 - g0) * 1024.0 / tot);
    }
    if (bulk)
        printf(",\"mb_s\":%.2f", tot * (double)c.size / 1e6 / el);
    if (islat) {
        qsort(lat, tot, 8, cmp);
        printf(",\"p50_us\":%.3f,\"p90_us\":%.3f,\"p99_us\":%.3f,\"max_us\":%.3f", lat[tot / 2] / 1e3,
               lat[tot * 9 / 10] / 1e3, lat[tot * 99 / 100] / 1e3, lat[tot - 1] / 1e3);
    }
    printf("}\n");
    fflush(stdout);
    reap();
    return 0;
}
