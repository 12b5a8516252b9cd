/* ZeroMQ: REQ client -> ROUTER/DEALER proxy (broker_zmq) -> REP server, ipc://.
   The proxy deals requests to its servers in turn, so with N pairs a client
   meets any server. */
#define _GNU_SOURCE
#include "ends.h"
#include <stdio.h>
#include <stdlib.h>
#include <string.h>
#include <zmq.h>
static void *ctx;
static void *opn(const struct cfg *c, int type, const char *nm) {
    char a[256];
    snprintf(a, sizeof a, "ipc://%s/%s", c->addr, nm);
    if (!ctx)
        ctx = zmq_ctx_new();
    void *s = zmq_socket(ctx, type);
    if (!s || zmq_connect(s, a))
        return NULL;
    return s;
}
static void *srv_open(const struct cfg *c, int sid) {
    (void)sid;
    return opn(c, ZMQ_REP, "back");
}
static void *cli_open(const struct cfg *c, int cid, int sid) {
    (void)cid;
    (void)sid;
    return opn(c, ZMQ_REQ, "front");
}
static void *idle_open(const struct cfg *c, int k) {
    (void)k;
    return opn(c, ZMQ_REQ, "front");
}
static void srv_loop(void *s) {
    for (;;) {
        zmq_msg_t m;
        zmq_msg_init(&m);
        if (zmq_msg_recv(&m, s, 0) < 8)
            return;
        uint64_t w;
        memcpy(&w, zmq_msg_data(&m), 8);
        w++;
        zmq_msg_close(&m);
        zmq_send(s, &w, 8, 0);
    }
}
static int call(void *s, uint64_t w, const void *bulk, size_t n, uint64_t *out) {
    if (zmq_send(s, bulk ? bulk : (void *)&w, n ? n : 8, 0) < 0)
        return -1;
    return zmq_recv(s, out, 8, 0) == 8 ? 0 : -1;
}
const struct be BE = {"zmq", srv_open, srv_loop, cli_open, call, idle_open, NULL};
