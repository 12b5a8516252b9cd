/* Whether buffers of the caller can be written: found out before a call goes out, since what comes is lost otherwise. */
#define _DEFAULT_SOURCE

#include "internal.h"

#include <errno.h>
#include <sys/mman.h>
#include <sys/syscall.h>
#include <unistd.h>

/* Linux's, which no header of a C library has: ors a word of 4 bytes with 0, and wakes who waits for it. */
enum { FUTEX_WAKE_OP_PRIVATE = 5 | 128, OR_WITH_ZERO = 2 << 28 };

/* Pages have at least so many bytes. */
enum { LEAST_PAGE = 4096 };

/* The word around the byte is written as it is, in one step also for other threads; where it cannot be, the system says so. */
static bool can_write_byte(uintptr_t byte)
{
#ifdef SYS_futex
	uint32_t unused = 0;

	return syscall(SYS_futex, &unused, FUTEX_WAKE_OP_PRIVATE, 0, NULL, byte & ~(uintptr_t) 3, OR_WITH_ZERO) >= 0 ||
	       errno != EFAULT;
#else
	return byte != 0;
#endif
}

/* Whether each page from the one of first to the one of last is there. They have at most MAX_STRING_BYTES between them. */
static bool are_pages_there(uintptr_t first, uintptr_t last)
{
	unsigned char states[MAX_STRING_BYTES / LEAST_PAGE + 2];
	uintptr_t begin = first & ~((uintptr_t) sysconf(_SC_PAGESIZE) - 1);

	return mincore(memory_at(begin), last - begin + 1, states) == 0 || errno != ENOMEM;
}

bool l4_can_write(const void *memory, L4_Word_t length)
{
	/* all strings of a message have no more bytes together */
	uintptr_t count = (uintptr_t) (length < MAX_STRING_BYTES ? length : MAX_STRING_BYTES);
	uintptr_t first = (uintptr_t) memory, last = first + count - 1;
	int saved = errno;
	bool can_write = count == 0 || (last >= first && can_write_byte(first) && can_write_byte(last));

	if (can_write && count > LEAST_PAGE)
		can_write = are_pages_there(first, last);
	errno = saved;
	return can_write;
}
