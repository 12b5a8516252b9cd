#include <stdio.h>
#include <zmq.h>
int main(int argc, char **argv) {
    const char *d = argc > 1 ? argv[1] : ".";
    char a[256], b[256];
    void *c = zmq_ctx_new(), *f = zmq_socket(c, ZMQ_ROUTER), *k = zmq_socket(c, ZMQ_DEALER);
    snprintf(a, sizeof a, "ipc://%s/front", d);
    snprintf(b, sizeof b, "ipc://%s/back", d);
    if (zmq_bind(f, a) || zmq_bind(k, b)) {
        perror("zmq");
        return 1;
    }
    puts("listening");
    fflush(stdout);
    zmq_proxy(f, k, NULL);
    return 0;
}
