/* Made by protocol/generate.py from the texts beside it: not edited by hand. */
/* The numbers of the protocol, as docs/FORMATS.md has them. */

#ifndef L4_PROTOCOL_H
#define L4_PROTOCOL_H

#include "bytes.h"

#include <stddef.h>

/* The limits that concern a client. */
enum {
	MAX_THREAD_NUMBER = 1023,
	MAX_SPACE = 64,
	MAX_MESSAGE_WORDS = 63,
	MAX_STRING_BYTES = 1048576,
	MAX_BUFFER_WORDS = 32,
	MAX_LABEL_BITS = 48,
	MAX_BODY_BYTES = 2097152,
	MAX_PATH_BYTES = 107,
	MAX_NAMES = 256,
	MAX_NAME_BYTES = 64,
};

/* The versions of the frames. */
enum {
	FIRST_WIRE_VERSION = 1,
	LAST_WIRE_VERSION = 2,
};

/* The kinds of frames. */
enum kind {
	HELLO = 0x01,
	IPC = 0x02,
	EXREG = 0x03,
	BYE = 0x04,
	WELCOME = 0x81,
	IPCR = 0x82,
	EXREGR = 0x83,
	IPCR_2 = 0x86,
	EXREGR_2 = 0x87,
	REFUSED = 0x84,
	FAULT = 0x85,
};

/* The body length of each; of one whose tail can grow the least one. */
enum {
	HELLO_BODY = 3,
	HELLO_2_BODY = 5,
	IPC_BODY = 46,
	EXREG_BODY = 17,
	BYE_BODY = 1,
	WELCOME_BODY = 9,
	IPCR_BODY = 34,
	EXREGR_BODY = 25,
	IPCR_2_BODY = 50,
	EXREGR_2_BODY = 33,
	REFUSED_BODY = 2,
	FAULT_BODY = 3,
};

/* How many bytes the fields take that stand behind the kind. */
enum {
	HELLO_FIELDS = 2,
	HELLO_2_FIELDS = 4,
	IPC_FIELDS = 45,
	EXREG_FIELDS = 16,
	BYE_FIELDS = 0,
	WELCOME_FIELDS = 8,
	IPCR_FIELDS = 32,
	EXREGR_FIELDS = 24,
	IPCR_2_FIELDS = 48,
	EXREGR_2_FIELDS = 32,
	REFUSED_FIELDS = 1,
	FAULT_FIELDS = 2,
	PIECE_FIELDS = 12,
};

/* How many numbers the last version tells of an Ipc besides. */
enum {
	TOLD_NUMBERS = 2,
};

/* The classes of codes that a FAULT tells. */
enum {
	CLASS_K = 0x4b,
	CLASS_F = 0x46,
	CLASS_S = 0x53,
};

/* K: the kernel refuses a command. */
enum {
	K_BAD_NUMBER = 1,
	K_NUMBER_TAKEN = 2,
	K_NUMBER_WORN = 3,
	K_NO_MEMORY = 4,
	K_HISTORY_FULL = 5,
	K_NO_THREAD = 6,
	K_BUSY = 7,
	K_CALLS_SPENT = 8,
};

/* F: a frame, or an item in it, is at fault. */
enum {
	F_TOO_LONG = 1,
	F_UNKNOWN_KIND = 2,
	F_WRONG_SIZE = 3,
	F_TOO_MANY_WORDS = 4,
	F_PAST_WORDS = 5,
	F_RESERVED_BIT = 6,
	F_OUTSIDE_PAYLOAD = 7,
	F_TOO_MANY_BYTES = 8,
	F_UNFINISHED = 9,
	F_DEVICE = 10,
	F_INTERRUPTED = 11,
	F_TIME_POINT = 12,
	F_SPENT = 13,
	F_NO_MEMORY = 14,
	F_UNKNOWN_VERSION = 15,
};

/* S: a session of a connection ends. */
enum {
	S_PROTOCOL = 1,
	S_DEVICE = 2,
	S_STOPPED = 3,
	S_GONE = 5,
};

/* C: the C client, of a call that it did not make or of an answer that is none. */
enum {
	C_NOT_CONNECTED = 1,
	C_NO_REGISTER = 2,
	C_LEFT_OUT_CONTROL = 3,
	C_NOT_AN_ANSWER = 4,
	C_IS_CONNECTED = 5,
	C_NO_PATH = 6,
	C_NOBODY_THERE = 7,
	C_NO_VERSION = 8,
	C_IS_FORKED = 9,
	C_CALL_IS_OPEN = 10,
	C_NO_ITEM = 11,
	C_NO_MEMORY_THERE = 12,
	C_NO_WELCOME = 13,
	C_NOT_BEGUN = 14,
};

/* N: the name server answers (1 to 5), or a client that asks for it or for a name. */
enum {
	N_BAD_REQUEST = 1,
	N_BAD_NAME = 2,
	N_NAME_TAKEN = 3,
	N_SERVER_FULL = 4,
	N_NO_MEMORY = 5,
	N_NO_NAME_SERVER = 6,
	N_NOBODY_HAS_NAME = 7,
};

/* What went wrong in a phase: e of an ErrorCode. */
enum {
	E_TIMEOUT = 1,
	E_NON_EXISTING_PARTNER = 2,
	E_CANCELLED = 3,
	E_MESSAGE_OVERFLOW = 4,
	E_ABORTED = 7,
};

/* The fields of frames: what puts or gets them answers the byte behind them. */

struct hello_fields {
	uint16_t number;
};

static inline unsigned char *put_hello(unsigned char *at, const struct hello_fields *fields)
{
	at = put_two(at, fields->number);
	return at;
}

struct hello_2_fields {
	uint16_t number;
	uint16_t version;
};

static inline unsigned char *put_hello_2(unsigned char *at, const struct hello_2_fields *fields)
{
	at = put_two(at, fields->number);
	at = put_two(at, fields->version);
	return at;
}

struct ipc_fields {
	L4_Word_t to;
	L4_Word_t from_specifier;
	uint32_t timeouts;
	L4_Word_t originator;
	L4_Word_t tag;
	L4_Word_t acceptor;
	uint8_t buffer_words;
};

static inline unsigned char *put_ipc(unsigned char *at, const struct ipc_fields *fields)
{
	at = put_word(at, fields->to);
	at = put_word(at, fields->from_specifier);
	at = put_half(at, fields->timeouts);
	at = put_word(at, fields->originator);
	at = put_word(at, fields->tag);
	at = put_word(at, fields->acceptor);
	at = put_byte(at, fields->buffer_words);
	return at;
}

struct exreg_fields {
	L4_Word_t dest;
	L4_Word_t control;
};

static inline unsigned char *put_exreg(unsigned char *at, const struct exreg_fields *fields)
{
	at = put_word(at, fields->dest);
	at = put_word(at, fields->control);
	return at;
}

struct welcome_fields {
	L4_Word_t thread;
};

static inline const unsigned char *get_welcome(const unsigned char *at, struct welcome_fields *fields)
{
	fields->thread = get_word(at);
	at += 8;
	return at;
}

struct ipcr_fields {
	L4_Word_t tag;
	L4_Word_t sender;
	L4_Word_t actual_sender;
	L4_Word_t error;
};

static inline const unsigned char *get_ipcr(const unsigned char *at, struct ipcr_fields *fields)
{
	fields->tag = get_word(at);
	at += 8;
	fields->sender = get_word(at);
	at += 8;
	fields->actual_sender = get_word(at);
	at += 8;
	fields->error = get_word(at);
	at += 8;
	return at;
}

struct exregr_fields {
	L4_Word_t result;
	L4_Word_t control;
	L4_Word_t code;
};

static inline const unsigned char *get_exregr(const unsigned char *at, struct exregr_fields *fields)
{
	fields->result = get_word(at);
	at += 8;
	fields->control = get_word(at);
	at += 8;
	fields->code = get_word(at);
	at += 8;
	return at;
}

struct exregr_2_fields {
	L4_Word_t moment;
	struct exregr_fields exregr;
};

static inline const unsigned char *get_exregr_2(const unsigned char *at, struct exregr_2_fields *fields)
{
	fields->moment = get_word(at);
	at += 8;
	return get_exregr(at, &fields->exregr);
}

struct refused_fields {
	uint8_t number;
};

static inline const unsigned char *get_refused(const unsigned char *at, struct refused_fields *fields)
{
	fields->number = get_byte(at);
	at += 1;
	return at;
}

struct fault_fields {
	uint8_t letter;
	uint8_t number;
};

static inline const unsigned char *get_fault(const unsigned char *at, struct fault_fields *fields)
{
	fields->letter = get_byte(at);
	at += 1;
	fields->number = get_byte(at);
	at += 1;
	return at;
}

struct piece_fields {
	L4_Word_t pointer;
	uint32_t length;
};

static inline const unsigned char *get_piece(const unsigned char *at, struct piece_fields *fields)
{
	fields->pointer = get_word(at);
	at += 8;
	fields->length = get_half(at);
	at += 4;
	return at;
}

/* The frame of an outcome in a version: its kind, its least body, and how many bytes its fields take, and words of them what only later
 * versions tell. */
struct outcome_form {
	enum kind kind;
	size_t body;
	size_t fields;
	size_t told;
};

static inline struct outcome_form outcome_form(unsigned version)
{
	switch (version) {
	case 2:
		return (struct outcome_form) { IPCR_2, IPCR_2_BODY, IPCR_2_FIELDS, 2 };
	default:
		return (struct outcome_form) { IPCR, IPCR_BODY, IPCR_FIELDS, 0 };
	}
}

#endif
