/* What the files of the library share: the state of a thread, and frames over its connection. */
#ifndef L4_INTERNAL_H
#define L4_INTERNAL_H

#include "protocol.h"

#include <l4/message.h>
#include <l4/thread.h>

#include <stddef.h>
#include <sys/uio.h>

enum {
	/* MR0 is the tag of a message, BR0 the acceptor */
	MESSAGE_REGISTERS = MAX_MESSAGE_WORDS + 1,
	BUFFER_REGISTERS = MAX_BUFFER_WORDS + 1,
	/* more than any frame without strings has, so that most answers come by one read */
	INPUT_BYTES = 8192,
	/* a frame before its body, and with the kind with which the body begins */
	LENGTH_BYTES = 4,
	HEAD_BYTES = LENGTH_BYTES + 1,
	/* so many names of a thread l4_serve registers again */
	KEPT_NAMES = 8,
	/* and of so many partners it knows that they owe an answer */
	MAX_OWING = 16,
};

/* Bits of tags and descriptors. */
enum {
	TAG_PROPAGATED = 0x1000,
	TAG_REDIRECTED = 0x2000,
	TAG_CROSSED = 0x4000,
	TAG_FAILED = 0x8000,
	/* u and t of a message that was given more than it can have, and of one that was given another item or count than can be */
	TAG_SPOILT = 0xfff,
	TAG_SPOILT_BY_ITEM = 0xfbf,
	ITEM_MORE = 0x1,
	ITEM_NONE = 0x8,
	ITEM_GOES_ON = 0x200,
	/* the first word of buffers that cannot be: one string that goes on behind the last register; the hints say that what is
	 * no string item made it so */
	BUFFERS_SPOILT = 0x3f0,
	BUFFERS_SPOILT_BY_ITEM = 0x3f6,
};

/* Who says that a call failed. */
enum source {
	NOBODY,
	/* the ErrorCode of an outcome */
	OUTCOME,
	SERVER_REFUSED,
	SERVER_FAULT,
	/* this library, of a call that it did not make or an answer that is none */
	FOUND_HERE,
};

/* Which phases a call has, with whom, and how many of BR1 on are its buffers. */
struct phases {
	bool sends;
	bool receives;
	L4_ThreadId_t to;
	L4_ThreadId_t from;
	size_t buffer_words;
};

struct failure {
	enum source source;
	char class;
	uint8_t number;
	L4_Word_t code;
	int saved_errno;
	/* what stands behind the text: a path, of a refusal with the number, or a name, or nothing. A copy, since a later call has
	 * others */
	char about[MAX_PATH_BYTES + sizeof "number 4294967295 at "];
	/* what that means where it happened, or what helps, or NULL */
	const char *hint;
	/* of an outcome: the phases of its call, and which string of the message did not fit, from 1 on, or 0 */
	struct phases phases;
	unsigned string;
	/* and how many microseconds were waited for its partner before that was given up, or 0 */
	L4_Word64_t waited;
};

/* What a later version tells of the last Ipc: so many numbers, in the order of l4_told_t. */
struct told {
	size_t count;
	L4_Word64_t numbers[TOLD_NUMBERS];
};

/* The moment of the last ExchangeRegisters, where a version tells it. */
struct told_moment {
	bool is_told;
	L4_Word64_t moment;
};

/* The names that a thread has registered, for l4_serve to register them again. */
struct kept {
	size_t count;
	char names[KEPT_NAMES][MAX_NAME_BYTES + 1];
	/* the moment at which that is due, as l4_end_of has it */
	int64_t due;
	/* the last time failed, which is told once; and this is being told now */
	bool has_failed;
	bool is_told;
};

/* The partners of the last calls that were given up once they were delivered: their answers may come to any receive.
 * L4_nilthread stands where there is none. */
struct owing {
	L4_ThreadId_t threads[MAX_OWING];
	size_t next;
};

/* A thread of the process: its virtual registers and its connection. */
struct thread {
	bool is_connected;
	/* an Ipc or ExchangeRegisters began and is not over: a signal handler calls within it, or one left it by longjmp */
	volatile bool is_calling;
	/* that one is of l4_ipc_begin */
	bool is_begun;
	struct phases open;
	/* of the wire */
	unsigned version;
	/* a register that is not there was used: the next Ipc tells it */
	bool is_misused;
	int socket;
	/* the other connected threads of the process */
	struct thread *next, **link;
	L4_ThreadId_t id;
	L4_Word_t mr[MESSAGE_REGISTERS];
	L4_Word_t br[BUFFER_REGISTERS];
	L4_Word_t error_code;
	/* the manual's one register: VirtualSender before a send, ActualSender after a receive */
	L4_ThreadId_t virtual_sender;
	/* L4_Set_VirtualSender was called: l4_serve asks it of its function */
	bool names_sender;
	/* l4_serve sends L4_FUNCTION_FAILED next, in place of an answer that cannot be sent */
	bool tells_failure;
	struct told last_call;
	struct told_moment last_exchange;
	struct failure last;
	/* why the connection was lost, told by each later call */
	struct failure lost;
	/* L4_nilthread: not looked for yet */
	L4_ThreadId_t name_server;
	/* whether the program chose it: then no other one is asked */
	bool has_chosen_names;
	struct kept kept;
	struct owing owing;
	char text[512];
	/* the path that was connected to, and the name that was asked for */
	char path[MAX_PATH_BYTES + 1];
	char name[MAX_NAME_BYTES + 1];
	/* bytes of the answer that were read and not yet taken: input[at] to input[end - 1] */
	size_t at;
	size_t end;
	/* bytes of the answer that are still to come from the socket */
	size_t to_come;
	unsigned char input[INPUT_BYTES];
};

#if defined __STDC_VERSION__ && __STDC_VERSION__ >= 201112L
#define THREAD_LOCAL _Thread_local
#else
#define THREAD_LOCAL __thread
#endif

/* hidden, so that the compiler knows where it is */
extern THREAD_LOCAL struct thread l4_thread __attribute__((visibility("hidden")));

/* failure.c: */

/* Keeps what a failure is about: a path, or a name, which is shorter. */
void l4_tell_about(struct failure *failure, const char *about);

/* Each of these answers -1, and all but the first set errno. */

/* The outcome of a call was this ErrorCode. */
int l4_tell_outcome(struct thread *thread, L4_Word_t code, const struct phases *phases, unsigned string);
/* A refusal of the server, or of the library before anything was sent: the connection stays. */
int l4_refuse(struct thread *thread, enum source source, char class, unsigned number);
/* An argument of a function is null, as "l4_serve: answer". */
int l4_refuse_null(struct thread *thread, const char *argument);
/* A fault told by the server or found by the library: the connection is closed. errno is cause, or if that is 0 the one
 * that goes with the number. */
int l4_lose(struct thread *thread, enum source source, char class, unsigned number, int cause);

/* thread.c: */

/* Closes the connection; the thread is none from then on. */
void l4_close(struct thread *thread);

/* The moment, in milliseconds, at which a time that begins now is over; and whether it is not yet: then a while passed. */
int64_t l4_end_of(L4_Time_t patience);
bool l4_pause(int64_t until);
/* How long it is until that moment: zero time where it is over. */
L4_Time_t l4_time_until(int64_t until);

/* names.c: */

/* How long the thread may wait until its names are to be registered again: L4_Never where it has none, zero time for now. */
L4_Time_t l4_names_patience(const struct thread *thread);
/* Registers them again, for which it waits a short time each. 0, or -1 where one could not be registered; the rest were tried. */
int l4_keep_names(struct thread *thread);

/* schedule.c: what a period is worth; UINT64_MAX for L4_Never. */
L4_Word64_t l4_microseconds(L4_Time_t time);

/* connection.c: */

/* These answer 0, or -1 with the connection lost. */

/* Sends these parts, by one call of the system where the socket takes them. They are changed. */
int l4_write(struct thread *thread, struct iovec *parts, size_t count);
/* The kind of the next frame and the length of its body. What stands behind the kind can be taken then. */
int l4_read_head(struct thread *thread, unsigned *kind, size_t *body);
/* The next count bytes of the frame, which has to have so many, at one place. At most INPUT_BYTES. */
int l4_take(struct thread *thread, size_t count, const unsigned char **bytes);
/* The next count bytes of the frame, which has to have so many, to memory of the caller. */
int l4_take_to(struct thread *thread, void *memory, size_t count);
/* What a frame tells that is not the answer that was asked for: REFUSED, FAULT, or nonsense. Always -1. */
int l4_read_refusal(struct thread *thread, unsigned kind, size_t body);

/* memory.c: whether so many bytes can be written there, of which no more than a message may have are looked at. */
bool l4_can_write(const void *memory, L4_Word_t length);

/* request.c: makes the frame of a call from the registers, and sends it. 0, or -1 where it is refused or the connection lost. */
int l4_ask(struct thread *thread, struct phases *phases, L4_Word_t timeouts);

/* ipc.c: whether this thread owed an answer. It owes one less from then on. */
bool l4_owed(struct owing *owing, L4_ThreadId_t from);

/* outcome.c: reads the outcome of a call. 0, with who sent at *from, or -1 where it is an error or the connection is lost. */
int l4_hear(struct thread *thread, const struct phases *phases, L4_ThreadId_t *from);

/* Begins a frame: its length, of a body of so many bytes, and its kind. */
static inline unsigned char *put_head(unsigned char *at, size_t body, enum kind kind)
{
	return put_byte(put_half(at, (uint32_t) body), kind);
}

/* The fields of a descriptor. */

static inline L4_Word_t item_pointers(L4_Word_t descriptor)
{
	return (descriptor >> 4 & 0x1f) + 1;
}

static inline L4_Word_t item_length(L4_Word_t descriptor)
{
	return descriptor >> 10;
}

static inline void *memory_at(L4_Word_t pointer)
{
	return (void *) (uintptr_t) pointer;
}

static inline L4_Word_t pointer_to(const void *memory)
{
	return (L4_Word_t) (uintptr_t) memory;
}

/* items.c */

/* The words of the item that begins at words[at], of which limit are there: 0 where it is none or runs past them. */
size_t l4_item_words(const L4_Word_t *words, size_t at, size_t limit);
/* The string of these items, from 1 on, in which the byte of this offset stands, all strings end to end; 0 for none. */
unsigned l4_string_at(const L4_Word_t *words, size_t count, L4_Word_t offset);

#endif
