/* Starts dbus-broker without systemd: this program is its controller (what
   dbus-broker-launch is, which wants a journal socket): it hands over one
   listening socket DIR/bus with an allow-all policy, prints "listening PID"
   (PID of dbus-broker, which is the process that is measured) and then only
   answers its messages. It ends with it. */
#define _GNU_SOURCE
#include <signal.h>
#include <stdio.h>
#include <stdlib.h>
#include <string.h>
#include <sys/prctl.h>
#include <sys/socket.h>
#include <sys/un.h>
#include <systemd/sd-bus.h>
#include <unistd.h>
#define BATCH "bta(btbs)a(btssssuutt)a(btssssuutt)"
#define POLICY "a(u(" BATCH "))a(buu(" BATCH "))a(ss)bs"
#define CK(x)                                                                                                          \
    do {                                                                                                               \
        int r_ = (x);                                                                                                  \
        if (r_ < 0) {                                                                                                  \
            fprintf(stderr, "%s: %s\n", #x, strerror(-r_));                                                            \
            return 1;                                                                                                  \
        }                                                                                                              \
    } while (0)
int main(int argc, char **argv) {
    int sp[2];
    char fd[16];
    struct sockaddr_un a = {.sun_family = AF_UNIX};
    snprintf(a.sun_path, sizeof a.sun_path, "%s/bus", argc > 1 ? argv[1] : ".");
    unlink(a.sun_path);
    if (socketpair(AF_UNIX, SOCK_STREAM | SOCK_CLOEXEC, 0, sp))
        return 1;
    pid_t p = fork();
    if (p == 0) {
        prctl(PR_SET_PDEATHSIG, SIGKILL);
        int d = dup(sp[1]);
        snprintf(fd, sizeof fd, "%d", d);
        execlp("dbus-broker", "dbus-broker", "--controller", fd, "--machine-id", "0123456789abcdef0123456789abcdef",
               "--max-bytes", "536870912", "--max-fds", "4096", "--max-matches", "131072", "--max-objects", "16384",
               (char *)NULL);
        _exit(127);
    }
    close(sp[1]);
    int l = socket(AF_UNIX, SOCK_STREAM | SOCK_NONBLOCK | SOCK_CLOEXEC, 0);
    if (bind(l, (void *)&a, sizeof a) || listen(l, 512)) {
        perror("listen");
        return 1;
    }
    sd_bus *b;
    sd_bus_message *m = NULL, *r = NULL;
    sd_bus_error e = SD_BUS_ERROR_NULL;
    CK(sd_bus_new(&b));
    CK(sd_bus_set_fd(b, sp[0], sp[0]));
    CK(sd_bus_start(b));
    CK(sd_bus_message_new_method_call(b, &m, NULL, "/org/bus1/DBus/Broker", "org.bus1.DBus.Broker", "AddListener"));
    CK(sd_bus_message_append(m, "oh", "/org/bus1/DBus/Listener/0", l));
    CK(sd_bus_message_open_container(m, 'v', "(" POLICY ")"));
    CK(sd_bus_message_open_container(m, 'r', POLICY));
    CK(sd_bus_message_append(m, POLICY, 1, (uint32_t)-1, 1, (uint64_t)1, 1, 1, (uint64_t)1, 1, "", 1, 1, (uint64_t)1,
                             "", "", "", "", 0, 0, (uint64_t)0, UINT64_MAX, 1, 1, (uint64_t)1, "", "", "", "", 0, 0,
                             (uint64_t)0, UINT64_MAX, 0, 0, 0, "session"));
    CK(sd_bus_message_close_container(m));
    CK(sd_bus_message_close_container(m));
    int c = sd_bus_call(b, m, 0, &e, &r);
    if (c < 0) {
        fprintf(stderr, "AddListener: %s %s\n", e.name ? e.name : "", e.message ? e.message : strerror(-c));
        return 1;
    }
    printf("listening %d\n", p);
    fflush(stdout);
    for (;;) {
        sd_bus_message *x = NULL;
        c = sd_bus_process(b, &x);
        if (c < 0)
            return 0;
        sd_bus_message_unref(x);
        if (c == 0)
            sd_bus_wait(b, UINT64_MAX);
    }
}
