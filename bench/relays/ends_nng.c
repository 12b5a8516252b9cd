/* nng: REQ client -> raw REP/REQ device (broker_nng) -> REP server, ipc://. As
   with ZeroMQ, a client meets any server. */
#define _GNU_SOURCE
#include "ends.h"
#include <nng/nng.h>
#include <nng/protocol/reqrep0/rep.h>
#include <nng/protocol/reqrep0/req.h>
#include <stdio.h>
#include <stdlib.h>
#include <string.h>
#include <time.h>
static nng_socket *opn(const struct cfg *c, int rep, const char *nm) {
    char a[256];
    snprintf(a, sizeof a, "ipc://%s/%s", c->addr, nm);
    nng_socket *s = malloc(sizeof *s);
    if (rep ? nng_rep0_open(s) : nng_req0_open(s))
        return NULL;
    nng_socket_set_size(*s, NNG_OPT_RECVMAXSZ, 4u << 20);
    nng_dialer d;
    if (nng_dial(*s, a, &d, 0))
        return NULL;
    return s;
}
static void *srv_open(const struct cfg *c, int sid) {
    (void)sid;
    return opn(c, 1, "back");
}
static void *cli_open(const struct cfg *c, int cid, int sid) {
    (void)cid;
    (void)sid;
    return opn(c, 0, "front");
}
static void *idle_open(const struct cfg *c, int k) {
    (void)k;
    return opn(c, 0, "front");
}
static void srv_loop(void *v) {
    nng_socket s = *(nng_socket *)v;
    for (;;) {
        void *p;
        size_t n;
        if (nng_recv(s, &p, &n, NNG_FLAG_ALLOC) || n < 8)
            return;
        uint64_t w;
        memcpy(&w, p, 8);
        w++;
        nng_free(p, n);
        if (nng_send(s, &w, 8, 0))
            return;
    }
}
static int call(void *v, uint64_t w, const void *bulk, size_t n, uint64_t *out) {
    nng_socket s = *(nng_socket *)v;
    size_t k = 8;
    if (nng_send(s, bulk ? (void *)bulk : (void *)&w, n ? n : 8, 0))
        return -1;
    return nng_recv(s, out, &k, 0) || k != 8 ? -1 : 0;
}
const struct be BE = {"nng", srv_open, srv_loop, cli_open, call, idle_open, NULL};
