/* Made by protocol/generate.py from the texts beside it: not edited by hand. */
/* The numbers that later versions of the wire tell of an Ipc, as docs/FORMATS.md has them. */
#ifndef L4_TOLD_H
#define L4_TOLD_H

typedef enum {
	l4_told_call,
	l4_told_moment,
} l4_told_t;

#endif
