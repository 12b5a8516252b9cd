#include <nng/nng.h>
#include <nng/protocol/reqrep0/rep.h>
#include <nng/protocol/reqrep0/req.h>
#include <stdio.h>
int main(int argc, char **argv) {
    const char *d = argc > 1 ? argv[1] : ".";
    char a[256], b[256];
    nng_socket f, k;
    int e;
    snprintf(a, sizeof a, "ipc://%s/front", d);
    snprintf(b, sizeof b, "ipc://%s/back", d);
    if ((e = nng_rep0_open_raw(&f)) || (e = nng_req0_open_raw(&k))) {
        fprintf(stderr, "nng %s\n", nng_strerror(e));
        return 1;
    }
    nng_socket_set_size(f, NNG_OPT_RECVMAXSZ, 4u << 20);
    nng_socket_set_size(k, NNG_OPT_RECVMAXSZ, 4u << 20);
    if ((e = nng_listen(f, a, NULL, 0)) || (e = nng_listen(k, b, NULL, 0))) {
        fprintf(stderr, "nng %s\n", nng_strerror(e));
        return 1;
    }
    puts("listening");
    fflush(stdout);
    e = nng_device(f, k);
    fprintf(stderr, "device %s\n", nng_strerror(e));
    return 1;
}
