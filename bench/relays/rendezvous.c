/* A measure, no server: the shape of l4d in C. It shows what this shape allows, and what it costs where a step takes
   longer.

     rendezvous --dir D --spaces 1 --connections N [--step-ns N]

   Each connection has a reader thread and a writer thread, and sockets block. Threads meet in unbuffered rendezvous,
   under one mutex, and each call is one step. The thread whose step finished calls writes their outcomes itself, at
   most three, its own connection's first. It never waits for room. Who writes to a connection has its pen, lays it
   down under the mutex, and looks there whether more came meanwhile. A writer thread writes what found no room, and a
   fourth outcome. A reader whose own call was over at once looks for its next frame for 30 microseconds before it
   sleeps. A payload is read into one block. The step that begins a transfer ends it: the block moves from the call of
   the sender to the outcome of the receiver, and is written from where it is.

   --step-ns makes each step take so many nanoseconds more, under the mutex.

   It serves what ends_l4d.c sends: HELLO of version 1, and IPC of words or of one simple string. It closes a connection
   that sends anything else. Left out: version 2 of the frames, ExchangeRegisters, BYE, REFUSED and FAULT; propagation,
   timeouts other than zero and never, strings of several parts, local threads; the history, and limits on memory. */
#define _GNU_SOURCE
#include "l4_frames.h"
#include <errno.h>
#include <pthread.h>
#include <sched.h>
#include <stdatomic.h>
#include <stdio.h>
#include <stdlib.h>
#include <string.h>
#include <sys/resource.h>
#include <sys/socket.h>
#include <sys/uio.h>
#include <sys/un.h>
#include <time.h>
#include <unistd.h>

/* of the protocol; FIXED are the bytes of the body of an IPC frame before its words */
enum { THREADS = 1024, FIXED = 46, MOST_WORDS = 63, MOST_BODY = 2097152, MOST_STRING = 1048576 };
enum { SEND_TIMEOUT = 2, RECEIVE_TIMEOUT = 3, NO_RECEIVER = 4, NO_SENDER = 5, SEND_OVERFLOW = 8, RECEIVE_OVERFLOW = 9 };
enum phase { IDLE, SENDING, RECEIVING };
enum sent { WHOLE, NO_ROOM, FAILED };
enum { AT_ONCE = 3, TRIES = 16, INPUT = 4096 }; /* INPUT is more than the longest frame without its payload */
enum { LOOK_NS = 30000, LOOKERS = 2, MOST_SKIPS = 64 };

struct call {
    uint64_t to, from, label, string_at, string_length, buffer_at, buffer_length;
    uint32_t timeouts;
    unsigned untyped;
    int has_string, has_buffer;
    uint8_t *block; /* the payload */
    uint64_t words[MOST_WORDS];
};
struct frame {
    size_t head_length, string_at, string_length, written;
    uint8_t *block;
    uint8_t head[4 + 34 + 8 * MOST_WORDS + 12];
};
struct connection {
    int fd;
    /* the reader's own */
    size_t have;
    int skips, vain;
    uint8_t input[INPUT];
    /* under the mutex */
    unsigned number;
    int references, ended; /* one of each of its threads, one of its pen while it is out */
    uint64_t id;
    enum phase phase;
    struct call call;
    struct connection *first_sender, **last_sender, *next_sender; /* who waits to send to it, and the next behind it */
    struct connection *next_finished;
    int has_outcome, pen_is_out, writer_has_pen;
    struct frame outcome;
    pthread_cond_t writer;
    /* of who has the pen */
    struct frame pen;
};

static pthread_mutex_t mutex = PTHREAD_MUTEX_INITIALIZER;
static pthread_cond_t all_closed = PTHREAD_COND_INITIALIZER;
static struct connection *threads[THREADS], *finished;
static uint32_t versions[THREADS];
static long open_connections;
static int64_t step_ns;
static int may_look;
static atomic_int lookers;

static int64_t now_ns(void) {
    struct timespec t;
    clock_gettime(CLOCK_MONOTONIC, &t);
    return t.tv_sec * 1000000000LL + t.tv_nsec;
}
/* As l4d takes its lock: who finds it taken tries again, then lets others run, and sleeps only then. */
static void lock(void) {
    for (int i = 0; i < 2 * TRIES; i++) {
        if (pthread_mutex_trylock(&mutex) == 0)
            return;
        if (i >= TRIES)
            sched_yield();
    }
    pthread_mutex_lock(&mutex);
}
static void lock_for_step(void) {
    lock();
    if (step_ns)
        for (int64_t end = now_ns() + step_ns; now_ns() < end;)
            ;
}
static void release(struct connection *c) { /* under the mutex */
    if (--c->references)
        return;
    close(c->fd);
    free(c->call.block);
    free(c->outcome.block);
    free(c->pen.block);
    pthread_cond_destroy(&c->writer);
    free(c);
    if (--open_connections == 0)
        pthread_cond_signal(&all_closed);
}

/* --- the rendezvous: all of it under the mutex --- */
static struct connection *thread_of(uint64_t id) {
    struct connection *c = id >> 32 < THREADS ? threads[id >> 32] : NULL;
    return c && c->id == id ? c : NULL;
}
static void finish(struct connection *c) {
    free(c->call.block);
    c->call.block = NULL;
    c->phase = IDLE;
    c->has_outcome = 1;
    c->next_finished = finished;
    finished = c;
}
/* Begins an outcome with its four fields. Answers where its words begin. */
static uint8_t *begin_outcome(struct connection *c, uint64_t tag, uint64_t sender, uint64_t error) {
    uint8_t *p = c->outcome.head + 4;
    c->outcome.string_length = c->outcome.written = 0;
    *p++ = L4_IPCR;
    return l4_put64(l4_put64(l4_put64(l4_put64(p, tag), sender), 0), error);
}
static void end_outcome(struct connection *c, uint8_t *end) {
    c->outcome.head_length = end - c->outcome.head;
    l4_put32(c->outcome.head, c->outcome.head_length - 4 + c->outcome.string_length);
    finish(c);
}
static void finish_with(struct connection *c, uint64_t error) {
    uint8_t *p = begin_outcome(c, error ? L4_E : 0, 0, error);
    *p++ = 0;
    end_outcome(c, p);
}
static void leave_queue(struct connection *sender, struct connection *receiver) {
    struct connection **at = &receiver->first_sender;
    while (*at != sender)
        at = &(*at)->next_sender;
    *at = sender->next_sender;
    if (!*at)
        receiver->last_sender = at;
}
/* Gives the message to the receiver. Answers the sender where its receive phase begins now. */
static struct connection *meet(struct connection *sender, struct connection *receiver) {
    struct call *sent = &sender->call, *wanted = &receiver->call;
    if (sent->has_string && (!wanted->has_buffer || wanted->buffer_length < sent->string_length)) {
        finish_with(sender, SEND_OVERFLOW);
        finish_with(receiver, RECEIVE_OVERFLOW);
        return NULL;
    }
    uint8_t *p = begin_outcome(receiver, sent->label | L4_TAG(sent->untyped, sent->has_string ? 2 : 0), sender->id, 0);
    for (unsigned i = 0; i < sent->untyped; i++)
        p = l4_put64(p, sent->words[i]);
    if (sent->has_string)
        p = l4_put64(l4_put64(p, L4_STR(sent->string_length)), wanted->buffer_at);
    *p++ = sent->string_length ? 1 : 0;
    if (sent->string_length) { /* the block moves, no byte of it does */
        p = l4_put32(l4_put64(p, wanted->buffer_at), sent->string_length);
        receiver->outcome.block = sent->block;
        receiver->outcome.string_at = sent->string_at;
        receiver->outcome.string_length = sent->string_length;
        sent->block = NULL;
    }
    end_outcome(receiver, p);
    if (sent->from != L4_NIL)
        return sender;
    finish_with(sender, 0);
    return NULL;
}
static void begin_receive(struct connection *c) {
    while (c) {
        uint64_t from = c->call.from;
        struct connection *sender = from == L4_ANY ? c->first_sender : thread_of(from);
        if (!sender && from != L4_ANY) {
            finish_with(c, NO_SENDER);
            return;
        }
        if (!sender || sender->phase != SENDING || sender->call.to != c->id) {
            if (c->call.timeouts & L4_ZERO)
                finish_with(c, RECEIVE_TIMEOUT);
            else
                c->phase = RECEIVING;
            return;
        }
        leave_queue(sender, c);
        c = meet(sender, c);
    }
}
static void begin_call(struct connection *c) {
    struct connection *receiver = thread_of(c->call.to);
    if (c->call.to == L4_NIL && c->call.from == L4_NIL)
        finish_with(c, 0);
    else if (c->call.to == L4_NIL)
        begin_receive(c);
    else if (!receiver || receiver == c)
        finish_with(c, NO_RECEIVER);
    else if (receiver->phase == RECEIVING && (receiver->call.from == L4_ANY || receiver->call.from == c->id))
        begin_receive(meet(c, receiver));
    else if (c->call.timeouts & L4_ZERO << 16)
        finish_with(c, SEND_TIMEOUT);
    else {
        c->phase = SENDING;
        c->next_sender = NULL;
        *receiver->last_sender = c;
        receiver->last_sender = &c->next_sender;
    }
}
static void end_thread(struct connection *c) {
    struct connection *receiver = c->phase == SENDING ? thread_of(c->call.to) : NULL, *sender;
    if (receiver)
        leave_queue(c, receiver);
    c->phase = IDLE;
    threads[c->number] = NULL;
    while ((sender = c->first_sender)) {
        leave_queue(sender, c);
        finish_with(sender, NO_RECEIVER);
    }
    for (int i = 0; i < THREADS; i++)
        if (threads[i] && threads[i]->phase == RECEIVING && threads[i]->call.from == c->id)
            finish_with(threads[i], NO_SENDER);
}

/* --- pens: who has one writes, and nobody else --- */
static enum sent send_pen(struct connection *c, int flags) { /* without the mutex */
    struct frame *pen = &c->pen;
    enum sent sent = WHOLE;
    while (sent == WHOLE && pen->written < pen->head_length + pen->string_length) {
        struct iovec parts[2];
        struct msghdr message = {.msg_iov = parts};
        size_t gone = pen->written < pen->head_length ? 0 : pen->written - pen->head_length; /* of the string */
        if (pen->written < pen->head_length)
            parts[message.msg_iovlen++] = (struct iovec){pen->head + pen->written, pen->head_length - pen->written};
        if (pen->string_length)
            parts[message.msg_iovlen++] = (struct iovec){pen->block + pen->string_at + gone, pen->string_length - gone};
        ssize_t count = message.msg_iovlen == 1 ? send(c->fd, parts[0].iov_base, parts[0].iov_len, flags | MSG_NOSIGNAL)
                                                : sendmsg(c->fd, &message, flags | MSG_NOSIGNAL);
        if (count < 0 && errno == EAGAIN)
            return NO_ROOM;
        if (count < 0 && errno != EINTR)
            sent = FAILED;
        pen->written += count < 0 ? 0 : count;
    }
    free(pen->block);
    pen->block = NULL;
    return sent;
}
static void fill_pen(struct connection *c) { /* under the mutex: the outcome becomes the frame that is written */
    struct frame *from = &c->outcome;
    c->has_outcome = 0;
    memcpy(&c->pen, from, offsetof(struct frame, head) + from->head_length);
    from->block = NULL;
}
static int take_pen(struct connection *c) { /* under the mutex; where another one has it, that one looks again */
    if (c->pen_is_out)
        return 0;
    c->pen_is_out = 1;
    c->references++;
    fill_pen(c);
    return 1;
}
/* Under the mutex, behind a write: whether the pen has one more frame. Else it is laid down, or its writer has it. */
static int goes_on(struct connection *c, enum sent sent) {
    if (sent == NO_ROOM && !c->ended) {
        c->writer_has_pen = 1;
        pthread_cond_signal(&c->writer);
        return 0;
    }
    if (sent != WHOLE)
        shutdown(c->fd, SHUT_RDWR); /* so its reader ends */
    else if (c->has_outcome) {
        fill_pen(c);
        return 1;
    }
    c->pen_is_out = 0;
    release(c);
    return 0;
}
/* Behind a step: takes pens, lets go of the mutex, and writes. */
static void hand_over(struct connection *own) {
    struct connection *mine[AT_ONCE], *c;
    int count = 0;
    if (own->has_outcome && take_pen(own))
        mine[count++] = own;
    for (; (c = finished); finished = c->next_finished) {
        if (!c->has_outcome)
            continue; /* its own, which is taken */
        if (count == AT_ONCE)
            pthread_cond_signal(&c->writer);
        else if (take_pen(c))
            mine[count++] = c;
    }
    pthread_mutex_unlock(&mutex);
    while (count) {
        enum sent sent[AT_ONCE];
        int left = 0;
        for (int i = 0; i < count; i++)
            sent[i] = send_pen(mine[i], MSG_DONTWAIT);
        lock();
        for (int i = 0; i < count; i++)
            if (goes_on(mine[i], sent[i]))
                mine[left++] = mine[i];
        pthread_mutex_unlock(&mutex);
        count = left;
    }
}
static void *write_rest(void *argument) {
    struct connection *own = argument;
    lock();
    for (;;) {
        if (own->writer_has_pen) {
            pthread_mutex_unlock(&mutex);
            enum sent sent = send_pen(own, 0);
            lock();
            own->writer_has_pen = goes_on(own, sent);
        } else if (own->has_outcome && take_pen(own))
            own->writer_has_pen = 1;
        else if (own->ended)
            break;
        else
            pthread_cond_wait(&own->writer, &mutex);
    }
    release(own);
    pthread_mutex_unlock(&mutex);
    return NULL;
}

/* --- frames come in --- */
static int say_hello(struct connection *own, unsigned number) { /* -1 where it cannot be answered */
    lock_for_step();
    if (own->id || number < 1 || number >= THREADS || threads[number]) {
        pthread_mutex_unlock(&mutex);
        return -1;
    }
    do
        versions[number]++;
    while (versions[number] % 64 == 0);
    threads[number] = own;
    own->number = number;
    own->id = (uint64_t)number << 32 | versions[number];
    own->outcome.string_length = own->outcome.written = 0;
    l4_put32(own->outcome.head, 9);
    own->outcome.head[4] = L4_WELCOME;
    own->outcome.head_length = l4_put64(own->outcome.head + 5, own->id) - own->outcome.head;
    own->has_outcome = 1;
    hand_over(own);
    return 0;
}
/* 1 where the call was over at once, so that the next frame may come soon; -1 where no call may be made. */
static int make_call(struct connection *own, const struct call *call) {
    lock_for_step();
    if (!own->id || own->phase != IDLE || own->has_outcome) {
        pthread_mutex_unlock(&mutex);
        return -1;
    }
    memcpy(&own->call, call, offsetof(struct call, words) + 8 * call->untyped);
    begin_call(own);
    int soon = own->has_outcome && own->call.from != L4_NIL;
    hand_over(own);
    return soon;
}
/* Whether two words are a simple item: a length, and where the string begins. */
static int read_item(const uint8_t *p, uint64_t *length, uint64_t *at) {
    *length = l4_get64(p) >> 10;
    *at = l4_get64(p + 8);
    return (l4_get64(p) & 0x3f8) == 0;
}
static int read_payload(struct connection *own, struct call *call, size_t at, size_t length) {
    size_t have = own->have - at < length ? own->have - at : length;
    call->block = malloc(length);
    if (!call->block)
        return -1;
    memcpy(call->block, own->input + at, have);
    for (size_t got = have; got < length;) {
        ssize_t count = recv(own->fd, call->block + got, length - got, 0);
        if (count == 0 || (count < 0 && errno != EINTR))
            return -1;
        got += count < 0 ? 0 : count;
    }
    return have;
}
/* Serves the first frame of the input. Answers how many bytes of the input it has: 0 is too few, -1 a bad frame. */
static int serve_first(struct connection *own, int *soon) {
    const uint8_t *body = own->input + 4;
    if (own->have < 5)
        return 0;
    size_t length = l4_get32(own->input);
    if (body[0] == L4_HELLO) {
        if (length != 3)
            return -1;
        return own->have < 7 ? 0 : say_hello(own, body[1] << 8 | body[2]) ? -1 : 7;
    }
    if (body[0] != L4_IPC || length < FIXED || length > MOST_BODY)
        return -1;
    if (own->have < 4 + FIXED)
        return 0;
    uint64_t tag = l4_get64(body + 29), acceptor = l4_get64(body + 37);
    unsigned untyped = tag & 63, typed = tag >> 6 & 63, buffers = body[45];
    if ((typed != 0 && typed != 2) || untyped + typed > MOST_WORDS || tag & 0xf000 || (buffers != 0 && buffers != 2))
        return -1;
    size_t start = FIXED + 8 * (untyped + typed + buffers), payload = length - start;
    if (length < start || (payload && !typed))
        return -1;
    if (own->have < 4 + start)
        return 0;
    struct call call;
    memset(&call, 0, offsetof(struct call, words));
    call.to = l4_get64(body + 1);
    call.from = l4_get64(body + 9);
    call.timeouts = l4_get32(body + 17);
    call.label = tag & ~0xffffull;
    call.untyped = untyped;
    call.has_string = typed != 0;
    call.has_buffer = acceptor & 1 && buffers;
    for (unsigned i = 0; i < untyped; i++)
        call.words[i] = l4_get64(body + FIXED + 8 * i);
    if (call.timeouts & ~(L4_ZERO << 16 | L4_ZERO)) /* each is never or zero */
        return -1;
    if (typed &&
        (!read_item(body + FIXED + 8 * untyped, &call.string_length, &call.string_at) || call.string_at > payload ||
         call.string_length > payload - call.string_at || call.string_length > MOST_STRING))
        return -1;
    if (buffers && !read_item(body + start - 16, &call.buffer_length, &call.buffer_at))
        return -1;
    int used = payload ? read_payload(own, &call, 4 + start, payload) : 0;
    *soon = used < 0 ? -1 : make_call(own, &call);
    if (*soon < 0) {
        free(call.block);
        return -1;
    }
    return 4 + start + used;
}
static ssize_t receive(struct connection *own, int flags) {
    ssize_t count;
    do
        count = recv(own->fd, own->input + own->have, INPUT - own->have, flags);
    while (count < 0 && errno == EINTR);
    return count;
}
/* Looks for more bytes for a while. After a vain look one is left out, then two, and up to 64. */
static ssize_t look(struct connection *own) {
    ssize_t count = -1;
    if (own->skips) {
        own->skips--;
        return -1;
    }
    if (atomic_fetch_add(&lookers, 1) < LOOKERS) {
        int64_t end = now_ns() + LOOK_NS;
        do
            count = receive(own, MSG_DONTWAIT);
        while (count < 0 && errno == EAGAIN && now_ns() < end);
        own->vain = count >= 0 ? 0 : own->vain == 0 ? 1 : own->vain < MOST_SKIPS ? 2 * own->vain : MOST_SKIPS;
        own->skips = own->vain;
    }
    atomic_fetch_sub(&lookers, 1);
    return count;
}
static void *read_frames(void *argument) {
    struct connection *own = argument;
    int soon = 0, used = 0;
    while (used >= 0) {
        ssize_t count = soon && may_look ? look(own) : -1;
        if (count < 0)
            count = receive(own, 0);
        if (count <= 0)
            break;
        own->have += count;
        soon = 0;
        while ((used = serve_first(own, &soon)) > 0) {
            own->have -= used;
            memmove(own->input, own->input + used, own->have);
        }
    }
    lock_for_step();
    if (own->id)
        end_thread(own);
    own->ended = 1;
    own->has_outcome = 0;
    pthread_cond_signal(&own->writer);
    shutdown(own->fd, SHUT_RDWR); /* so no write to it waits any more */
    hand_over(own);
    lock();
    release(own);
    pthread_mutex_unlock(&mutex);
    return NULL;
}

int main(int argc, char **argv) {
    const char *folder = ".";
    long connections = 65535;
    for (int i = 1; i + 1 < argc; i += 2) {
        if (!strcmp(argv[i], "--dir"))
            folder = argv[i + 1];
        else if (!strcmp(argv[i], "--connections"))
            connections = atol(argv[i + 1]);
        else if (!strcmp(argv[i], "--step-ns"))
            step_ns = atol(argv[i + 1]);
        else if (strcmp(argv[i], "--spaces") || strcmp(argv[i + 1], "1")) {
            fprintf(stderr, "rendezvous: bad option %s %s\n", argv[i], argv[i + 1]);
            return 2;
        }
    }
    cpu_set_t processors;
    may_look = sched_getaffinity(0, sizeof processors, &processors) == 0 && CPU_COUNT(&processors) > 1;
    struct rlimit descriptors = {4000, 4000};
    setrlimit(RLIMIT_NOFILE, &descriptors);
    struct sockaddr_un address = {.sun_family = AF_UNIX};
    snprintf(address.sun_path, sizeof address.sun_path, "%s/space1", folder);
    int listener = socket(AF_UNIX, SOCK_STREAM | SOCK_CLOEXEC, 0);
    if (bind(listener, (void *)&address, sizeof address) || listen(listener, 128)) {
        perror("rendezvous");
        return 1;
    }
    puts("listening");
    fflush(stdout);
    pthread_attr_t detached;
    pthread_attr_init(&detached);
    pthread_attr_setdetachstate(&detached, PTHREAD_CREATE_DETACHED);
    for (long i = 0; i < connections; i++) {
        int fd = accept(listener, NULL, NULL);
        struct connection *c = fd < 0 ? NULL : calloc(1, sizeof *c);
        if (!c) {
            perror("rendezvous");
            return 1;
        }
        c->fd = fd;
        c->references = 2;
        c->last_sender = &c->first_sender;
        pthread_cond_init(&c->writer, NULL);
        lock();
        open_connections++;
        pthread_mutex_unlock(&mutex);
        pthread_t thread;
        if (pthread_create(&thread, &detached, read_frames, c) || pthread_create(&thread, &detached, write_rest, c)) {
            perror("rendezvous");
            return 1;
        }
    }
    close(listener);
    lock();
    while (open_connections)
        pthread_cond_wait(&all_closed, &mutex);
    pthread_mutex_unlock(&mutex);
    unlink(address.sun_path);
    puts("closed");
    return 0;
}
