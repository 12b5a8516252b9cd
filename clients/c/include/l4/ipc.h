/* The Ipc system call, and its convenience forms.
 *
 * The message is that of the message registers; what was received stands there afterwards, and its strings stand in the
 * buffers that were accepted. A call that fails answers a tag with E: L4_IpcFailed; then L4_ErrorCode says why, and
 * l4_error says it in words. Where the connection is lost (the server ended, or sent what is no answer) the thread is
 * none any more: L4_Myself is L4_nilthread, and each later call fails at once. A server's loop has to look for that. */
#ifndef L4_IPC_H
#define L4_IPC_H

#include <l4/message.h>
#include <l4/schedule.h>
#include <l4/thread.h>
#include <l4/types.h>

L4_BEGIN_C_

static inline L4_Word_t L4_Timeouts(L4_Time_t SndTimeout, L4_Time_t RcvTimeout)
{
	return (L4_Word_t) SndTimeout.raw << 16 | RcvTimeout.raw;
}

/* Sends to `to`, and then receives from FromSpecifier; L4_nilthread leaves a phase out. *from is who sent, L4_nilthread
 * where nothing was received; from may be null. */
L4_MsgTag_t L4_Ipc(L4_ThreadId_t to, L4_ThreadId_t FromSpecifier, L4_Word_t Timeouts, L4_ThreadId_t *from);

/* L4_Ipc in two parts. The first sends the call: 0, or -1 where it could not be made, as for an L4_Ipc that fails. The second
 * waits for its outcome, which comes when l4_fd() is readable. Between them the thread has no other call (C10), and the
 * buffer registers and the buffers stay as they are. l4_disconnect gives the call up. */
int l4_ipc_begin(L4_ThreadId_t to, L4_ThreadId_t FromSpecifier, L4_Word_t Timeouts);
L4_MsgTag_t l4_ipc_end(L4_ThreadId_t *from);

static inline L4_Bool_t L4_IpcSucceeded(L4_MsgTag_t t)
{
	return (t.raw & 0x8000) == 0;
}

static inline L4_Bool_t L4_IpcFailed(L4_MsgTag_t t)
{
	return (t.raw & 0x8000) != 0;
}

static inline L4_Bool_t L4_IpcPropagated(L4_MsgTag_t t)
{
	return (t.raw & 0x1000) != 0;
}

/* The message is sent in the name of the thread of L4_Set_VirtualSender. */
static inline void L4_Set_Propagation(L4_MsgTag_t *t)
{
	t->raw |= 0x1000;
}

static inline L4_MsgTag_t L4_Call_Timeouts(L4_ThreadId_t to, L4_Time_t SndTimeout, L4_Time_t RcvTimeout)
{
	return L4_Ipc(to, to, L4_Timeouts(SndTimeout, RcvTimeout), 0);
}

static inline L4_MsgTag_t L4_Call(L4_ThreadId_t to)
{
	return L4_Call_Timeouts(to, L4_Never, L4_Never);
}

static inline L4_MsgTag_t L4_Send_Timeout(L4_ThreadId_t to, L4_Time_t SndTimeout)
{
	return L4_Ipc(to, L4_nilthread, L4_Timeouts(SndTimeout, L4_Never), 0);
}

static inline L4_MsgTag_t L4_Send(L4_ThreadId_t to)
{
	return L4_Send_Timeout(to, L4_Never);
}

/* Sends to a thread that waits; one that does not wait gets nothing. */
static inline L4_MsgTag_t L4_Reply(L4_ThreadId_t to)
{
	return L4_Send_Timeout(to, L4_ZeroTime);
}

static inline L4_MsgTag_t L4_Receive_Timeout(L4_ThreadId_t from, L4_Time_t RcvTimeout)
{
	return L4_Ipc(L4_nilthread, from, L4_Timeouts(L4_Never, RcvTimeout), 0);
}

static inline L4_MsgTag_t L4_Receive(L4_ThreadId_t from)
{
	return L4_Receive_Timeout(from, L4_Never);
}

static inline L4_MsgTag_t L4_Wait_Timeout(L4_Time_t RcvTimeout, L4_ThreadId_t *from)
{
	return L4_Ipc(L4_nilthread, L4_anythread, L4_Timeouts(L4_Never, RcvTimeout), from);
}

static inline L4_MsgTag_t L4_Wait(L4_ThreadId_t *from)
{
	return L4_Wait_Timeout(L4_Never, from);
}

/* Replies, as L4_Reply does, and waits. Where the reply fails there is no receive phase. */
static inline L4_MsgTag_t L4_ReplyWait_Timeout(L4_ThreadId_t to, L4_Time_t RcvTimeout, L4_ThreadId_t *from)
{
	return L4_Ipc(to, L4_anythread, L4_Timeouts(L4_ZeroTime, RcvTimeout), from);
}

static inline L4_MsgTag_t L4_ReplyWait(L4_ThreadId_t to, L4_ThreadId_t *from)
{
	return L4_ReplyWait_Timeout(to, L4_Never, from);
}

/* L4_Call, made again for so long as no thread of this id is live. Of L4_nilthread, as l4_lookup answers it where it fails,
 * L4_Call would leave out both phases, and succeed; this sends nothing, and fails with the ErrorCode 0x4 and errno EINVAL. */
L4_MsgTag_t l4_call_wait(L4_ThreadId_t to, L4_Time_t patience);

/* A receive from oneself, which ends by its timeout or a cancel. */
static inline void L4_Sleep(L4_Time_t t)
{
	(void) L4_Receive_Timeout(L4_Myself(), t);
}

L4_END_C_

#endif
