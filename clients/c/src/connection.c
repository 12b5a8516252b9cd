/* Frames over the connection of a thread. */
#define _POSIX_C_SOURCE 200809L

#include "internal.h"

#include <errno.h>
#include <string.h>
#include <sys/socket.h>

/* recv, and what its end or failure means. How many bytes came, at least 1, or -1. */
static ssize_t receive(struct thread *thread, void *memory, size_t room)
{
	ssize_t count;

	do
		count = recv(thread->socket, memory, room, 0);
	while (count < 0 && errno == EINTR && thread->is_connected);
	/* a signal handler ended the thread, or forked: the number may be that of another file by now */
	if (!thread->is_connected)
		return l4_refuse(thread, FOUND_HERE, 'C', C_NOT_CONNECTED);
	/* reset: the other side ended before it had read all */
	if (count == 0 || (count < 0 && errno == ECONNRESET))
		return l4_lose(thread, FOUND_HERE, 'F', F_UNFINISHED, 0);
	if (count < 0)
		return l4_lose(thread, FOUND_HERE, 'F', F_DEVICE, errno);
	return count;
}

/* Bytes from the socket behind those that are there, until there are so many. */
static int fill(struct thread *thread, size_t wanted, size_t room)
{
	while (thread->end < wanted) {
		ssize_t count = receive(thread, thread->input + thread->end, room - thread->end);
		if (count < 0)
			return -1;
		thread->end += (size_t) count;
	}
	return 0;
}

int l4_read_head(struct thread *thread, unsigned *kind, size_t *body)
{
	thread->at = thread->end = 0;
	if (fill(thread, LENGTH_BYTES, INPUT_BYTES) < 0)
		return -1;
	*body = get_half(thread->input);
	/* told before the kind comes, since a body without bytes has none */
	if (*body == 0)
		return l4_lose(thread, FOUND_HERE, 'F', F_WRONG_SIZE, 0);
	if (*body > MAX_BODY_BYTES)
		return l4_lose(thread, FOUND_HERE, 'F', F_TOO_LONG, 0);
	if (fill(thread, HEAD_BYTES, INPUT_BYTES) < 0)
		return -1;
	/* a call has one answer, so nothing stands behind it */
	if (thread->end > LENGTH_BYTES + *body)
		return l4_lose(thread, FOUND_HERE, 'C', C_NOT_AN_ANSWER, 0);
	thread->to_come = LENGTH_BYTES + *body - thread->end;
	thread->at = HEAD_BYTES;
	*kind = thread->input[LENGTH_BYTES];
	return 0;
}

static size_t least(size_t l, size_t r)
{
	return l < r ? l : r;
}

int l4_take(struct thread *thread, size_t count, const unsigned char **bytes)
{
	size_t there = thread->end - thread->at;

	if (there < count) {
		memmove(thread->input, thread->input + thread->at, there);
		thread->at = 0;
		thread->end = there;
		/* no byte behind the frame is read */
		if (fill(thread, count, least(INPUT_BYTES, there + thread->to_come)) < 0)
			return -1;
		thread->to_come -= thread->end - there;
	}
	*bytes = thread->input + thread->at;
	thread->at += count;
	return 0;
}

int l4_take_to(struct thread *thread, void *memory, size_t count)
{
	size_t there = least(count, thread->end - thread->at);
	unsigned char *at = memory;

	memcpy(at, thread->input + thread->at, there);
	thread->at += there;
	while (there < count) {
		ssize_t more = receive(thread, at + there, count - there);
		if (more < 0)
			return -1;
		there += (size_t) more;
		thread->to_come -= (size_t) more;
	}
	return 0;
}

int l4_read_refusal(struct thread *thread, unsigned kind, size_t body)
{
	struct refused_fields refused;
	struct fault_fields fault;
	const unsigned char *bytes;

	switch (kind) {
	case REFUSED:
		if (body != REFUSED_BODY)
			return l4_lose(thread, FOUND_HERE, 'F', F_WRONG_SIZE, 0);
		if (l4_take(thread, REFUSED_FIELDS, &bytes) < 0)
			return -1;
		(void) get_refused(bytes, &refused);
		return l4_refuse(thread, SERVER_REFUSED, 'K', refused.number);
	case FAULT:
		if (body != FAULT_BODY)
			return l4_lose(thread, FOUND_HERE, 'F', F_WRONG_SIZE, 0);
		if (l4_take(thread, FAULT_FIELDS, &bytes) < 0)
			return -1;
		(void) get_fault(bytes, &fault);
		if (fault.letter != CLASS_K && fault.letter != CLASS_F && fault.letter != CLASS_S)
			return l4_lose(thread, FOUND_HERE, 'C', C_NOT_AN_ANSWER, 0);
		return l4_lose(thread, SERVER_FAULT, (char) fault.letter, fault.number, 0);
	case WELCOME:
	case IPCR:
	case EXREGR:
	case IPCR_2:
	case EXREGR_2:
		return l4_lose(thread, FOUND_HERE, 'C', C_NOT_AN_ANSWER, 0);
	default:
		return l4_lose(thread, FOUND_HERE, 'F', F_UNKNOWN_KIND, 0);
	}
}

/* A send failed. Where the server ended the connection, it may have told before why. */
static int lose_by_send(struct thread *thread, int cause)
{
	unsigned kind;
	size_t body;

	if (cause != EPIPE && cause != ECONNRESET)
		return l4_lose(thread, FOUND_HERE, 'F', F_DEVICE, cause);
	return l4_read_head(thread, &kind, &body) < 0 ? -1 : l4_read_refusal(thread, kind, body);
}

/* Sends what it can of the parts. One alone goes by send, which costs the system less. */
static ssize_t send_parts(const struct thread *thread, struct iovec *parts, size_t count)
{
	struct msghdr message = { .msg_iov = parts, .msg_iovlen = count };

	if (count == 1)
		return send(thread->socket, parts->iov_base, parts->iov_len, MSG_NOSIGNAL);
	return sendmsg(thread->socket, &message, MSG_NOSIGNAL);
}

int l4_write(struct thread *thread, struct iovec *parts, size_t count)
{
	bool is_begun = false;

	while (count > 0) {
		ssize_t sent = send_parts(thread, parts, count);

		if (!thread->is_connected)
			return l4_refuse(thread, FOUND_HERE, 'C', C_NOT_CONNECTED);
		if (sent < 0 && errno == EINTR)
			continue;
		/* nothing of the frame is on its way, so the connection is as it was */
		if (sent < 0 && errno == EFAULT && !is_begun)
			return l4_refuse(thread, FOUND_HERE, 'C', C_NO_MEMORY_THERE);
		if (sent < 0)
			return lose_by_send(thread, errno);
		is_begun = true;
		for (; count > 0 && (size_t) sent >= parts->iov_len; parts++, count--)
			sent -= (ssize_t) parts->iov_len;
		if (count > 0) {
			parts->iov_base = (unsigned char *) parts->iov_base + sent;
			parts->iov_len -= (size_t) sent;
		}
	}
	return 0;
}
