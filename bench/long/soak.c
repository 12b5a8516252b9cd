/* Keeps an l4d busy for long: pairs and a star of clients, each exchange counted at both ends.

   A client's message has a number that grows, how often it was tried, and now and then a string whose bytes follow from the number.
   The server looks at all of it, and that no message of a client comes twice or late. Where processes are killed others go on with
   their numbers as threads of the same number. One JSON line tells each interval how it stands. See bench/README.md. */
#define _GNU_SOURCE
#include "../relays/l4_frames.h"
#include <signal.h>
#include <stdarg.h>
#include <stdint.h>
#include <stdio.h>
#include <stdlib.h>
#include <string.h>
#include <sys/mman.h>
#include <sys/prctl.h>
#include <sys/wait.h>
#include <time.h>
#include <unistd.h>

#define MOST 1024
#define LONGEST (1u << 20)
#define STUCK_SECONDS 60
#define TRIES 20000

struct shared {
    volatile int failed, stop;
    volatile uint64_t server[MOST];                /* the id of each server, 0 while there is none */
    volatile uint64_t sent[MOST], done[MOST];      /* by client: the last number that was sent; exchanges that ended well */
    volatile uint64_t seen[MOST], seen_try[MOST];  /* by client: what its server saw last */
    volatile uint64_t strings, again;              /* strings that came; calls that were tried once more */
    char why[200];
};

static struct shared *sh;
static const char *path;
static int pairs = 32, star = 16, servers, clients, with_strings, kill_ms;
static long rest_us;
static pid_t kids[2 * MOST];

static int64_t now_ms(void) {
    struct timespec t;
    clock_gettime(CLOCK_MONOTONIC, &t);
    return t.tv_sec * 1000LL + t.tv_nsec / 1000000;
}
static void nap_us(long us) {
    struct timespec t = {us / 1000000, us % 1000000 * 1000};
    nanosleep(&t, NULL);
}
static void fail(const char *format, ...) {
    char text[200];
    va_list ap;
    va_start(ap, format);
    vsnprintf(text, sizeof text, format, ap);
    va_end(ap);
    if (!__sync_lock_test_and_set(&sh->failed, 1))
        snprintf(sh->why, sizeof sh->why, "%s", text);
    _exit(3);
}
static uint8_t byte_of(uint64_t number, size_t place) {
    return (uint8_t)(number * 31 + place * 7 + (place >> 8));
}
static uint64_t chance(uint64_t *state) {
    *state ^= *state << 13;
    *state ^= *state >> 7;
    *state ^= *state << 17;
    return *state;
}

/* A connection that is a thread; where its number is another's for a moment more it asks again. */
static void connected(struct l4 *c, unsigned number) {
    int e = -1;
    for (int i = 0; i < TRIES; i++) {
        memset(c, 0, sizeof *c);
        if (l4_open(c, path))
            fail("thread %u cannot connect", number);
        e = l4_hello(c, number);
        if (!e)
            return;
        l4_close(c);
        nap_us(1000);
    }
    fail("thread %u is refused: %d", number, e);
}

static void serve(int place) {
    struct l4 c;
    struct l4_frame f;
    uint64_t words[2], buffer[2] = {L4_STR(LONGEST), 0x1000};
    struct l4_call k = {.to = L4_NIL, .from = L4_ANY, .timeouts = L4_TMO(L4_ZERO, L4_NEVER), .acceptor = 1, .words = words, .nb = 2,
                        .bwords = buffer};
    connected(&c, place + 1);
    sh->server[place] = c.id;
    for (;;) {
        if (l4_ipc(&c, &k, &f) || f.kind != L4_IPCR)
            fail("server %d: frame 0x%x", place, f.kind);
        if (f.tag & L4_E) {
            /* the client that asked is gone */
            if (!kill_ms)
                fail("server %d: error 0x%llx", place, (long long)f.error);
            k.to = L4_NIL;
            k.tag = 0;
            continue;
        }
        int from = (int)(f.sender >> 32) - servers - 1;
        if (from < 0 || from >= clients || f.nwords < 2)
            fail("server %d: a message of 0x%llx", place, (long long)f.sender);
        uint64_t number = f.w[0], try = f.w[1];
        if (number < sh->seen[from] || (number == sh->seen[from] && try <= sh->seen_try[from]))
            fail("server %d: client %d's %llu, try %llu, after %llu, try %llu", place, from, (long long)number, (long long)try,
                 (long long)sh->seen[from], (long long)sh->seen_try[from]);
        if (!kill_ms && number != sh->seen[from] + 1)
            fail("server %d: client %d's %llu after %llu", place, from, (long long)number, (long long)sh->seen[from]);
        sh->seen_try[from] = try;
        sh->seen[from] = number;
        for (unsigned i = 0; i < f.npieces; i++)
            for (uint32_t j = 0; j < f.piece[i].len; j++)
                if (f.piece[i].bytes[j] != byte_of(number, j))
                    fail("server %d: byte %u of client %d's %llu", place, j, from, (long long)number);
        if (f.npieces)
            __sync_fetch_and_add(&sh->strings, 1);
        words[0] = number + 1;
        words[1] = try;
        k.to = f.sender;
        k.tag = L4_TAG(2, 0);
    }
}

static void ask(int place) {
    struct l4 c;
    struct l4_frame f;
    uint64_t words[4], state = 88172645463325252ull + place + sh->sent[place] * 2654435761ull;
    uint8_t *bytes = malloc(LONGEST);
    int server = place < pairs ? place : pairs;
    connected(&c, servers + 1 + place);
    while (!sh->stop) {
        uint64_t number = sh->sent[place] + 1;
        size_t long_ = 0;
        sh->sent[place] = number;
        if (with_strings && chance(&state) % 16 == 0)
            long_ = 1 + chance(&state) % (chance(&state) % 64 ? 4096 : 262144);
        for (size_t j = 0; j < long_; j++)
            bytes[j] = byte_of(number, j);
        for (uint64_t try = 0;; try++) {
            struct l4_call k = {.timeouts = L4_TMO(L4_NEVER, L4_NEVER), .tag = L4_TAG(2, long_ ? 2 : 0), .words = words,
                                .payload = bytes, .npayload = long_};
            k.to = k.from = sh->server[server];
            words[0] = number;
            words[1] = try;
            words[2] = L4_STR(long_);
            words[3] = 0;
            if (l4_ipc(&c, &k, &f) || f.kind != L4_IPCR)
                fail("client %d: frame 0x%x", place, f.kind);
            if (!(f.tag & L4_E)) {
                if (f.nwords != 2 || f.w[0] != number + 1 || f.w[1] != try)
                    fail("client %d: wrong answer to %llu", place, (long long)number);
                break;
            }
            /* its server was killed; the next one has another id */
            if (!kill_ms || try > TRIES)
                fail("client %d: error 0x%llx", place, (long long)f.error);
            __sync_fetch_and_add(&sh->again, 1);
            nap_us(1000);
        }
        sh->done[place]++;
        if (rest_us)
            nap_us((long)(chance(&state) % (2 * rest_us)));
    }
    l4_bye(&c);
    _exit(0);
}

static void start(int kid) {
    kids[kid] = fork();
    if (kids[kid] < 0)
        fail("fork");
    if (kids[kid])
        return;
    prctl(PR_SET_PDEATHSIG, SIGKILL);
    if (kid < servers)
        serve(kid);
    ask(kid - servers);
}

static uint64_t total(void) {
    uint64_t sum = 0;
    for (int i = 0; i < clients; i++)
        sum += sh->done[i];
    return sum;
}

int main(int argc, char **argv) {
    double seconds = 1e9, every = 10;
    uint64_t exchanges = UINT64_MAX, kills = 0, told[MOST] = {0}, state = 2463534242ull;
    int64_t moved[MOST];
    for (int i = 1; i + 1 < argc; i += 2) {
        char *name = argv[i], *value = argv[i + 1];
        if (!strcmp(name, "--path"))
            path = value;
        else if (!strcmp(name, "--pairs"))
            pairs = atoi(value);
        else if (!strcmp(name, "--star"))
            star = atoi(value);
        else if (!strcmp(name, "--exchanges"))
            exchanges = strtoull(value, 0, 0);
        else if (!strcmp(name, "--seconds"))
            seconds = atof(value);
        else if (!strcmp(name, "--every"))
            every = atof(value);
        else if (!strcmp(name, "--strings"))
            with_strings = atoi(value);
        else if (!strcmp(name, "--kill-ms"))
            kill_ms = atoi(value);
        else if (!strcmp(name, "--rest-us"))
            rest_us = atol(value);
        else
            return fprintf(stderr, "soak: bad option %s\n", name), 2;
    }
    servers = pairs + (star > 0);
    clients = pairs + star;
    if (!path || pairs < 0 || star < 0 || servers + clients >= MOST || !clients)
        return fprintf(stderr, "soak: --path, and at most %d threads\n", MOST - 1), 2;
    signal(SIGPIPE, SIG_IGN);
    sh = mmap(NULL, sizeof *sh, PROT_READ | PROT_WRITE, MAP_SHARED | MAP_ANONYMOUS, -1, 0);
    for (int i = 0; i < servers; i++)
        start(i);
    for (int i = 0; i < servers; i++)
        while (!sh->server[i] && !sh->failed)
            nap_us(1000);
    for (int i = 0; i < clients; i++)
        start(servers + i);
    int64_t began = now_ms(), tells = began, kills_at = began + kill_ms;
    uint64_t before = 0;
    for (int i = 0; i < clients; i++)
        moved[i] = began;
    for (int over = 0; !over && !sh->failed;) {
        nap_us(5000);
        int64_t now = now_ms();
        over = total() >= exchanges || now - began >= seconds * 1000;
        if (kill_ms && now >= kills_at && !over) {
            int kid = chance(&state) % (servers + clients);
            kill(kids[kid], SIGKILL);
            waitpid(kids[kid], NULL, 0);
            start(kid);
            kills++;
            kills_at = now + kill_ms;
        }
        for (int i = 0; i < clients; i++) {
            if (sh->done[i] != told[i]) {
                told[i] = sh->done[i];
                moved[i] = now;
            } else if (now - moved[i] > STUCK_SECONDS * 1000 + rest_us / 500) {
                sh->failed = 1;
                snprintf(sh->why, sizeof sh->why, "client %d waits since %d seconds", i, STUCK_SECONDS);
            }
        }
        if (now - tells >= every * 1000 || over) {
            uint64_t sum = total();
            printf("{\"seconds\":%.1f,\"exchanges\":%llu,\"per_second\":%.0f,\"kills\":%llu,\"again\":%llu,\"strings\":%llu}\n",
                   (now - began) / 1e3, (long long)sum, (sum - before) * 1e3 / (double)(now - tells + 1), (long long)kills,
                   (long long)sh->again, (long long)sh->strings);
            fflush(stdout);
            before = sum;
            tells = now;
        }
    }
    sh->stop = 1;
    for (int i = 0; i < 2000 && !sh->failed; i++) {
        int left = 0;
        for (int kid = servers; kid < servers + clients; kid++) {
            if (kids[kid] && waitpid(kids[kid], NULL, WNOHANG) == kids[kid])
                kids[kid] = 0;
            left += kids[kid] != 0;
        }
        if (!left)
            break;
        nap_us(5000);
    }
    for (int kid = 0; kid < servers + clients; kid++)
        if (kids[kid]) {
            if (kid >= servers && !sh->failed) {
                sh->failed = 1;
                snprintf(sh->why, sizeof sh->why, "client %d did not end", kid - servers);
            }
            kill(kids[kid], SIGKILL);
            waitpid(kids[kid], NULL, 0);
        }
    for (int i = 0; i < clients && !sh->failed; i++)
        if (sh->done[i] > sh->seen[i] || (!kill_ms && (sh->done[i] != sh->seen[i] || sh->done[i] != sh->sent[i]))) {
            sh->failed = 1;
            snprintf(sh->why, sizeof sh->why, "client %d: %llu sent, %llu seen, %llu answered", i, (long long)sh->sent[i],
                     (long long)sh->seen[i], (long long)sh->done[i]);
        }
    if (sh->failed)
        printf("{\"failed\":\"%s\"}\n", sh->why);
    return sh->failed;
}
