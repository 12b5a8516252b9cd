/* The system call Ipc, whole and in two parts. */
#include "internal.h"

#include <l4/ipc.h>

#include <errno.h>

/* The ErrorCode of a send to a thread that is not live. */
enum { NOBODY_TO_SEND_TO = E_NON_EXISTING_PARTNER << 1 };

static L4_MsgTag_t failed(struct thread *thread, const struct phases *phases)
{
	/* An outcome names its phase itself. Else no value of e fits: e is 0, and p the phase that the call began with. */
	if (thread->last.source != OUTCOME && !phases->sends)
		thread->error_code |= 1;
	thread->mr[0] = TAG_FAILED;
	return (L4_MsgTag_t) { TAG_FAILED };
}

/* What a call within another one answers: it is not made, and leaves the registers of the other one as they are. */
static L4_MsgTag_t refuse_within(struct thread *thread, bool sends)
{
	(void) l4_refuse(thread, FOUND_HERE, 'C', C_CALL_IS_OPEN);
	thread->error_code |= sends ? 0 : 1;
	return (L4_MsgTag_t) { TAG_FAILED };
}

/* Sends a call, whose phases are kept. 0 where an outcome is to be heard now. */
static int begin(struct thread *thread, L4_ThreadId_t to, L4_ThreadId_t from, L4_Word_t timeouts)
{
	int status;

	thread->open = (struct phases) { .sends = !L4_IsNilThread(to), .receives = !L4_IsNilThread(from), .to = to, .from = from };
	thread->is_calling = true;
	thread->last_call.count = 0;
	if (!thread->is_connected)
		status = l4_refuse(thread, FOUND_HERE, 'C', C_NOT_CONNECTED);
	else if (thread->is_misused)
		status = l4_refuse(thread, FOUND_HERE, 'C', C_NO_REGISTER);
	else
		status = l4_ask(thread, &thread->open, timeouts);
	thread->is_misused = false;
	if (status < 0) {
		thread->is_calling = false;
		(void) failed(thread, &thread->open);
	}
	return status;
}

bool l4_owed(struct owing *owing, L4_ThreadId_t from)
{
	for (size_t i = 0; i < MAX_OWING && !L4_IsNilThread(from); i++)
		if (L4_IsThreadEqual(owing->threads[i], from)) {
			owing->threads[i] = L4_nilthread;
			return true;
		}
	return false;
}

/* Whether a call was given up once it was delivered: its answer is still to come. */
static bool is_given_up(const struct failure *failure)
{
	unsigned error = failure->code >> 1 & 7;

	return failure->source == OUTCOME && failure->code & 1 && (error == E_TIMEOUT || error == E_CANCELLED);
}

/* Keeps whether the partner of a call owes its answer. One that has answered has done with what it was asked before. */
static void keep_owing(struct thread *thread, int status)
{
	const struct phases *phases = &thread->open;
	struct owing *owing = &thread->owing;

	if (!phases->sends || !L4_IsThreadEqual(phases->to, phases->from) || (status < 0 && !is_given_up(&thread->last)))
		return;
	if (status == 0) {
		while (l4_owed(owing, phases->to))
			;
		return;
	}
	owing->threads[owing->next] = phases->to;
	owing->next = (owing->next + 1) % MAX_OWING;
}

/* Hears the outcome of the call that was sent. */
static L4_MsgTag_t end(struct thread *thread, L4_ThreadId_t *from)
{
	int status = l4_hear(thread, &thread->open, from);

	thread->is_calling = thread->is_begun = false;
	keep_owing(thread, status);
	return status < 0 ? failed(thread, &thread->open) : (L4_MsgTag_t) { thread->mr[0] };
}

L4_MsgTag_t L4_Ipc(L4_ThreadId_t to, L4_ThreadId_t FromSpecifier, L4_Word_t Timeouts, L4_ThreadId_t *from)
{
	struct thread *thread = &l4_thread;

	if (from != NULL)
		*from = L4_nilthread;
	/* the registers are those of the call that is open */
	if (thread->is_calling)
		return refuse_within(thread, !L4_IsNilThread(to));
	return begin(thread, to, FromSpecifier, Timeouts) < 0 ? (L4_MsgTag_t) { TAG_FAILED } : end(thread, from);
}

int l4_ipc_begin(L4_ThreadId_t to, L4_ThreadId_t FromSpecifier, L4_Word_t Timeouts)
{
	struct thread *thread = &l4_thread;
	int status;

	if (thread->is_calling) {
		(void) refuse_within(thread, !L4_IsNilThread(to));
		return -1;
	}
	status = begin(thread, to, FromSpecifier, Timeouts);
	thread->is_begun = status == 0;
	return status;
}

L4_MsgTag_t l4_ipc_end(L4_ThreadId_t *from)
{
	struct thread *thread = &l4_thread;

	if (from != NULL)
		*from = L4_nilthread;
	if (thread->is_begun)
		return end(thread, from);
	(void) l4_refuse(thread, FOUND_HERE, 'C', C_NOT_BEGUN);
	return (L4_MsgTag_t) { TAG_FAILED };
}

/* What l4_call_wait answers for L4_nilthread. L4_Call would leave out both phases, and succeed. */
static L4_MsgTag_t refuse_nobody(struct thread *thread)
{
	const struct phases none = { .to = L4_nilthread, .from = L4_nilthread };

	thread->last_call.count = 0;
	(void) l4_tell_outcome(thread, NOBODY_TO_SEND_TO, &none, 0);
	thread->last.hint = "nobody is called, and nothing was sent: did the look up fail?";
	thread->mr[0] = TAG_FAILED;
	errno = EINVAL;
	return (L4_MsgTag_t) { TAG_FAILED };
}

/* Whether a send went to a thread that is not live. */
static bool is_nobody_there(const struct failure *failure)
{
	return failure->source == OUTCOME && failure->code == NOBODY_TO_SEND_TO;
}

L4_MsgTag_t l4_call_wait(L4_ThreadId_t to, L4_Time_t patience)
{
	struct thread *thread = &l4_thread;
	L4_Word_t sent = thread->mr[0];
	int64_t until = l4_end_of(patience);
	L4_MsgTag_t tag;

	if (L4_IsNilThread(to) && thread->is_connected && !thread->is_calling)
		return refuse_nobody(thread);
	/* of a message that nobody was there to receive nothing is gone */
	do {
		thread->mr[0] = sent;
		tag = L4_Call(to);
		if (!L4_IpcFailed(tag) || !is_nobody_there(&thread->last))
			return tag;
	} while (l4_pause(until));
	thread->last.waited = l4_microseconds(patience);
	return tag;
}
