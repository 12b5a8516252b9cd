/* D-Bus by sd-bus (libsystemd), the leaner of the usual C libraries; the same
   ends for dbus-daemon and dbus-broker. A word goes as 't', bulk as 'ay'. */
#define _GNU_SOURCE
#include "ends.h"
#include <stdio.h>
#include <stdlib.h>
#include <string.h>
#include <systemd/sd-bus.h>
struct h {
    sd_bus *b;
    char dst[64];
};
static sd_bus *opn(const struct cfg *c) {
    sd_bus *b = NULL;
    char a[256];
    snprintf(a, sizeof a, "unix:path=%s/bus", c->addr);
    if (sd_bus_new(&b) < 0 || sd_bus_set_address(b, a) < 0 || sd_bus_set_bus_client(b, 1) < 0 || sd_bus_start(b) < 0)
        return NULL;
    const char *u;
    if (sd_bus_get_unique_name(b, &u) < 0)
        return NULL; /* waits for Hello */
    return b;
}
static void *srv_open(const struct cfg *c, int sid) {
    struct h *h = calloc(1, sizeof *h);
    char n[64];
    h->b = opn(c);
    if (!h->b)
        return NULL;
    snprintf(n, sizeof n, "bench.S%d", sid);
    return sd_bus_request_name(h->b, n, 0) < 0 ? NULL : h;
}
static void srv_loop(void *v) {
    struct h *h = v;
    for (;;) {
        sd_bus_message *m = NULL;
        int r = sd_bus_process(h->b, &m);
        if (r < 0)
            return;
        if (r == 0) {
            if (sd_bus_wait(h->b, UINT64_MAX) < 0)
                return;
            continue;
        }
        if (m && sd_bus_message_is_method_call(m, "bench.I", NULL)) {
            uint64_t w = 0;
            if (sd_bus_message_is_method_call(m, "bench.I", "B")) {
                const void *p;
                size_t n;
                if (sd_bus_message_read_array(m, 'y', &p, &n) < 0 || n < 8)
                    return;
                memcpy(&w, p, 8);
            } else
                sd_bus_message_read(m, "t", &w);
            sd_bus_reply_method_return(m, "t", w + 1);
        }
        sd_bus_message_unref(m);
    }
}
static void *cli_open(const struct cfg *c, int cid, int sid) {
    (void)cid;
    struct h *h = calloc(1, sizeof *h);
    h->b = opn(c);
    snprintf(h->dst, sizeof h->dst, "bench.S%d", sid);
    return h->b ? h : NULL;
}
static int call(void *v, uint64_t w, const void *bulk, size_t n, uint64_t *out) {
    struct h *h = v;
    sd_bus_message *m = NULL, *r = NULL;
    if (sd_bus_message_new_method_call(h->b, &m, h->dst, "/", "bench.I", bulk ? "B" : "W") < 0)
        return -1;
    if (bulk ? sd_bus_message_append_array(m, 'y', bulk, n) < 0 : sd_bus_message_append(m, "t", w) < 0)
        return -1;
    int e = sd_bus_call(h->b, m, 10000000, NULL, &r);
    sd_bus_message_unref(m);
    if (e < 0)
        return -1;
    e = sd_bus_message_read(r, "t", out);
    sd_bus_message_unref(r);
    return e < 0 ? -1 : 0;
}
static void *idle_open(const struct cfg *c, int k) {
    (void)k;
    return opn(c);
}
const struct be BE = {"dbus", srv_open, srv_loop, cli_open, call, idle_open, NULL};
