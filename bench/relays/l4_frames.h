/* Client library for l4d's frames (docs/FORMATS.md). Blocking, one
   frame out, one frame in. No global state. */
#ifndef L4_FRAMES_H
#define L4_FRAMES_H
#include <stddef.h>
#include <stdint.h>
#include <string.h>

/* Numbers as frames have them: the highest byte first. What puts one answers the place behind it. */
static inline uint8_t *l4_put32(uint8_t *p, uint32_t v) {
    v = __builtin_bswap32(v);
    memcpy(p, &v, 4);
    return p + 4;
}
static inline uint8_t *l4_put64(uint8_t *p, uint64_t v) {
    v = __builtin_bswap64(v);
    memcpy(p, &v, 8);
    return p + 8;
}
static inline uint32_t l4_get32(const uint8_t *p) {
    uint32_t v;
    memcpy(&v, p, 4);
    return __builtin_bswap32(v);
}
static inline uint64_t l4_get64(const uint8_t *p) {
    uint64_t v;
    memcpy(&v, p, 8);
    return __builtin_bswap64(v);
}

#define L4_NIL 0ull
#define L4_ANY (~0ull)
#define L4_LOCAL (~0ull << 6)
#define L4_NEVER 0x0000u
#define L4_ZERO 0x0400u
#define L4_TMO(snd, rcv) (((uint32_t)(snd) << 16) | (rcv)) /* the send timeout stands in bits 16 to 31 */
#define L4_TAG(u, t) ((uint64_t)(u) | (uint64_t)(t) << 6)
#define L4_STR(len) ((uint64_t)(len) << 10) /* simple item: this and one pointer */
#define L4_E 0x8000ull

enum {
    L4_HELLO = 1,
    L4_IPC = 2,
    L4_EXREG = 3,
    L4_BYE = 4,
    L4_WELCOME = 0x81,
    L4_IPCR = 0x82,
    L4_EXREGR = 0x83,
    L4_REFUSED = 0x84,
    L4_FAULT = 0x85
};

struct l4 {
    int fd;
    uint64_t id;
    uint8_t *rb;
    size_t have, cap, used;
};

struct l4_call {
    uint64_t to, from;
    uint32_t timeouts;
    uint64_t vsender, tag, acceptor;
    const uint64_t *words; /* u + t of the tag */
    uint8_t nb;
    const uint64_t *bwords;
    const void *payload;
    size_t npayload;
};

/* A frame from the server. Pointers stand until the next l4_read. */
struct l4_frame {
    uint8_t kind;
    uint64_t id;                         /* WELCOME; EXREGR result */
    uint64_t control, code;              /* EXREGR */
    uint8_t class_, number;              /* REFUSED: number; FAULT: both */
    uint64_t tag, sender, actual, error; /* IPCR */
    unsigned nwords;
    uint64_t w[63];
    unsigned npieces;
    struct {
        uint64_t ptr;
        uint32_t len;
        const uint8_t *bytes;
    } piece[255];
};

int l4_open(struct l4 *c, const char *path); /* 0, or -1 with errno */
void l4_close(struct l4 *c);
size_t l4_head(uint8_t *b, const struct l4_call *k); /* length, body up to the payload; b has room for 900 bytes */
int l4_send(struct l4 *c, const struct l4_call *k);  /* 0 or -1 */
int l4_read(struct l4 *c, struct l4_frame *f);       /* 0, -1 device or end, -2 not by the grammar */
int l4_hello(struct l4 *c, unsigned number);         /* 0 and c->id; K number; -1; -(class << 8 | number) of a FAULT */
int l4_ipc(struct l4 *c, const struct l4_call *k, struct l4_frame *f); /* as l4_read; look at f->kind */
int l4_exreg(struct l4 *c, uint64_t dest, uint64_t control, struct l4_frame *f);
int l4_bye(struct l4 *c);
#endif
