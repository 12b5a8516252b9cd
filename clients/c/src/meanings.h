/* Made by protocol/generate.py from the texts beside it: not edited by hand. */
/* Of each code its errno, and what it means. */
#include "internal.h"

#include <errno.h>

struct meaning {
	char class;
	uint8_t number;
	int saved_errno;
	const char *text;
};

static const struct meaning meanings[] = {
	{ 'K', K_BAD_NUMBER, EINVAL, "the thread number is not 1 to 1023, or the space is not 1 to 64" },
	{ 'K', K_NUMBER_TAKEN, EADDRINUSE, "a thread of that number is live" },
	{ 'K', K_NUMBER_WORN, EADDRNOTAVAIL, "the versions of that thread number are used up" },
	{ 'K', K_NO_MEMORY, ENOMEM, "the server has no memory" },
	{ 'K', K_HISTORY_FULL, ENOSPC, "the history of the server is full: of open calls, or of what its trace has not written yet" },
	{ 'K', K_NO_THREAD, EPROTO, "no such thread is live" },
	{ 'K', K_BUSY, EPROTO, "the thread has an open call, or an outcome that it has not yet taken" },
	{ 'K', K_CALLS_SPENT, EOVERFLOW, "the number of the call would pass the limit" },
	{ 'F', F_TOO_LONG, EPROTO, "a frame has a body of more than 2,097,152 bytes" },
	{ 'F', F_UNKNOWN_KIND, EPROTO, "a frame is of no kind that this side is sent" },
	{ 'F', F_WRONG_SIZE, EPROTO, "a frame has a body length that its kind doesn't have" },
	{ 'F', F_TOO_MANY_WORDS, EMSGSIZE, "a frame has more than 63 words or more than 32 buffer words" },
	{ 'F', F_PAST_WORDS, EINVAL, "an item runs past its words, or its c is set and no item comes after it" },
	{ 'F', F_RESERVED_BIT, EINVAL, "bit 3 of a descriptor of a string or of a buffer is 1" },
	{ 'F', F_OUTSIDE_PAYLOAD, EPROTO, "a string has a range that is not in the payload" },
	{ 'F', F_TOO_MANY_BYTES, EMSGSIZE, "the strings have more than 1,048,576 bytes together" },
	{ 'F', F_UNFINISHED, ECONNRESET, "the connection ended" },
	{ 'F', F_DEVICE, EIO, "the connection failed" },
	{ 'F', F_INTERRUPTED, EIO, "1,000 turns in a row were interrupted" },
	{ 'F', F_TIME_POINT, EINVAL, "a timeout that is no period" },
	{ 'F', F_SPENT, EPROTO, "the reader was asked again after a fault" },
	{ 'F', F_NO_MEMORY, ENOMEM, "the server has no memory" },
	{ 'F', F_UNKNOWN_VERSION, EPROTO, "a HELLO names a version that there is not" },
	{ 'S', S_PROTOCOL, EPROTO, "a frame has no place there: an IPC or EXREG before HELLO, or HELLO after WELCOME" },
	{ 'C', C_NOT_CONNECTED, ENOTCONN, "the thread is not connected" },
	{ 'C', C_NO_REGISTER, EINVAL, "a register that is not there" },
	{ 'C', C_LEFT_OUT_CONTROL, EINVAL, "a control of ExchangeRegisters with other bits than R and S" },
	{ 'C', C_NOT_AN_ANSWER, EPROTO, "the server sent what is no answer to the call" },
	{ 'C', C_IS_CONNECTED, EISCONN, "the thread is connected already" },
	{ 'C', C_NO_PATH, ENAMETOOLONG, "the path of the space is too long for a socket" },
	{ 'C', C_NOBODY_THERE, ESRCH, "ExchangeRegisters of what is no live thread of the caller's space" },
	{ 'C', C_NO_VERSION, EINVAL, "the wire has no such version" },
	{ 'C', C_IS_FORKED, ENOTCONN, "the connection stayed with the process that forked this one" },
	{ 'C', C_CALL_IS_OPEN, EBUSY, "a call of the thread is open: l4_ipc_begin began it, longjmp left it, or a signal handler calls within it" },
	{ 'C', C_NO_ITEM, EINVAL, "no string item, or not such as the function takes: a size below 0, too many substrings, or another u or t of L4_MsgPut" },
	{ 'C', C_NO_MEMORY_THERE, EFAULT, "a string or a buffer lies in memory that is not there" },
	{ 'C', C_NO_WELCOME, ETIMEDOUT, "the server is full or does not answer" },
	{ 'C', C_NOT_BEGUN, EINVAL, "no call was begun that could be ended" },
	{ 'N', N_BAD_REQUEST, EPROTO, "no request of a name server" },
	{ 'N', N_BAD_NAME, EINVAL, "a name has 1 to 64 bytes of printable ASCII without the space" },
	{ 'N', N_NAME_TAKEN, EADDRINUSE, "another live thread has the name" },
	{ 'N', N_SERVER_FULL, ENOSPC, "the name server is full" },
	{ 'N', N_NO_MEMORY, ENOMEM, "the name server has no memory" },
	{ 'N', N_NO_NAME_SERVER, ESRCH, "there is no name server" },
	{ 'N', N_NOBODY_HAS_NAME, ENOENT, "no live thread has the name" },
};

/* What went wrong in a phase, by e. */
static const char *const errors[8] = {
	[0] = "no error",
	[1] = "timeout",
	[2] = "non-existing partner",
	[3] = "cancelled by another thread",
	[4] = "message overflow",
	[5] = "an error without a name",
	[6] = "an error without a name",
	[7] = "aborted by another thread, or its partner ended",
};
