/* Threads: their ids, the connection that makes the calling thread one of them, and ExchangeRegisters. */
#ifndef L4_THREAD_H
#define L4_THREAD_H

#include <l4/told.h>
#include <l4/types.h>

L4_BEGIN_C_

#define L4_nilthread L4_MADE_(L4_ThreadId_t, 0)
#define L4_anythread L4_MADE_(L4_ThreadId_t, ~(L4_Word_t) 0)
#define L4_anylocalthread L4_MADE_(L4_ThreadId_t, ~(L4_Word_t) 0x3f)

/* The id of these two; what does not fit 32 bits is cut off. */
static inline L4_ThreadId_t L4_GlobalId(L4_Word_t threadno, L4_Word_t version)
{
	return L4_MADE_(L4_ThreadId_t, threadno << 32 | (version & 0xffffffff));
}

static inline L4_Word_t L4_ThreadNo(L4_ThreadId_t t)
{
	return t.raw >> 32;
}

static inline L4_Word_t L4_Version(L4_ThreadId_t t)
{
	return t.raw & 0xffffffff;
}

static inline L4_Bool_t L4_IsThreadEqual(L4_ThreadId_t l, L4_ThreadId_t r)
{
	return l.raw == r.raw;
}

static inline L4_Bool_t L4_IsThreadNotEqual(L4_ThreadId_t l, L4_ThreadId_t r)
{
	return l.raw != r.raw;
}

/* No thread has a local id here, so two ids are the same thread only where they are equal. */
static inline L4_Bool_t L4_SameThreads(L4_ThreadId_t l, L4_ThreadId_t r)
{
	return l.raw == r.raw;
}

static inline L4_Bool_t L4_IsNilThread(L4_ThreadId_t t)
{
	return t.raw == 0;
}

/* Has the form of a local id, as L4_anylocalthread does. */
static inline L4_Bool_t L4_IsLocalId(L4_ThreadId_t t)
{
	return t.raw != 0 && (t.raw & 0x3f) == 0;
}

/* Has the form of a global id, as L4_anythread does. */
static inline L4_Bool_t L4_IsGlobalId(L4_ThreadId_t t)
{
	return (t.raw & 0x3f) != 0;
}

/* Makes the calling thread the L4 thread of this number (1 to 1023) in this space (1 to 64) of the server whose folder
 * is dir: it connects to dir/spaceN. 0, or -1 with errno: that of connect(2) or socket(2); EISCONN where the thread is
 * connected; EFAULT where dir is null; EINVAL, EADDRINUSE, EADDRNOTAVAIL, ENOMEM, ENOSPC for REFUSED K1 to K5; ETIMEDOUT
 * where the server is full, or answers nothing for 10 seconds; EPROTO for a FAULT or another answer. The connection, and so
 * the L4 thread, ends with the thread of the process at the latest. VirtualSender begins as 0. The buffer registers stay:
 * what L4_Accept and L4_AcceptStrings put there before holds for the receives of this thread, too. */
int l4_connect(const char *dir, unsigned space, unsigned number);

/* The same, and the version of the wire that is spoken: 1, which l4_connect speaks, or a later one; EINVAL for none. A server that
 * has version 1 alone answers FAULT F3, so errno is EPROTO and l4_error begins with it: call l4_connect then. */
int l4_connect_version(const char *dir, unsigned space, unsigned number, unsigned version);

/* The same with the time that it may take: it tries again while nobody listens at the path or the number is that of a live
 * thread, and waits for an answer, until that time is over; for an answer it waits a second at least. */
int l4_connect_wait(const char *dir, unsigned space, unsigned number, unsigned version, L4_Time_t patience);

/* What a later version tells of the last Ipc of the calling thread, also of one that was made for l4/names.h: the number of the
 * call, which is that in the trace of the server, and the moment at which it was over, in microseconds since the server began.
 * False, and 0 in both places, where nothing was told: in version 1, before the first Ipc, and where the last one was refused or
 * was not made. Either pointer may be null. */
L4_Bool_t l4_last_call(L4_Word_t *number, L4_Word64_t *moment);

/* One number of those that any version tells of the last Ipc, in the same way: l4_told_call, l4_told_moment, and what l4/told.h
 * has besides. */
L4_Bool_t l4_last_told(l4_told_t which, L4_Word64_t *number);

/* The moment of the last ExchangeRegisters of the calling thread, in the same way. */
L4_Bool_t l4_last_exchange(L4_Word64_t *moment);

/* Ends the L4 thread, and waits until the server has ended it, for a second at most. Nothing happens where the calling
 * thread is none. A forked child is none: it may connect, and its parent's threads go on. No function of this library may
 * be called from a signal handler. */
void l4_disconnect(void);

/* The descriptor of the connection, for poll and its like alone; -1 where the calling thread is not connected. It is
 * readable where the outcome of l4_ipc_begin comes, and, with no call begun, where the connection has ended. */
int l4_fd(void);

/* Why the last call of this thread that failed did so: the phase and error of an Ipc, the number of a refusal or
 * fault, or what was wrong with the connection. "no error" before the first. It stands until the next call of
 * l4_error in this thread. */
const char *l4_error(void);

/* The id of the calling thread; L4_nilthread where it is not connected, or no longer. */
L4_ThreadId_t L4_Myself(void);
L4_ThreadId_t L4_MyGlobalId(void);

/* The thread control registers that are there. L4_ErrorCode: p in bit 0 (0 send phase, 1 receive phase), e in bits 1
 * to 3, the offset from bit 4 on. e is 0 where the server refused the call, or the connection or the call itself was at
 * fault: the offset is then 256 * class + number, with the
 * class K, F or S of a refusal or fault, C for what this library tells itself, N for names. */
L4_Word_t L4_ErrorCode(void);
L4_ThreadId_t L4_ActualSender(void);
void L4_Set_VirtualSender(L4_ThreadId_t t);

/* The bits R and S of the control word of ExchangeRegisters are 0x2 and 0x4. A control with any other bit stops nobody:
 * the answer is L4_nilthread, with errno EINVAL and C3 in L4_ErrorCode. No stack pointer, instruction pointer, flags,
 * handle or pager of another process can be had or set, so these parameters are not looked at, and what comes back is
 * 0 and L4_nilthread. *old_control has R where dest was in a receive phase and S where it was in a send phase. For a
 * dest that is not a live thread of the caller's space the answer is L4_nilthread with L4_ErrInvalidThread in
 * L4_ErrorCode. Any pointer may be null. */
#define L4_ErrInvalidThread ((L4_Word_t) 2)

L4_ThreadId_t L4_ExchangeRegisters(L4_ThreadId_t dest, L4_Word_t control, L4_Word_t sp, L4_Word_t ip, L4_Word_t flags,
				   L4_Word_t UserDefinedHandle, L4_ThreadId_t pager, L4_Word_t *old_control,
				   L4_Word_t *old_sp, L4_Word_t *old_ip, L4_Word_t *old_flags,
				   L4_Word_t *old_UserDefinedHandle, L4_ThreadId_t *old_pager);

/* What an old control word tells: (L4_ThreadState_t) { old_control }. */
typedef struct {
	L4_Word_t raw;
} L4_ThreadState_t;

static inline L4_Bool_t L4_ThreadWasReceiving(L4_ThreadState_t s)
{
	return (s.raw & 0x2) != 0;
}

static inline L4_Bool_t L4_ThreadWasSending(L4_ThreadState_t s)
{
	return (s.raw & 0x4) != 0;
}

static inline L4_Bool_t L4_ThreadWasIpcing(L4_ThreadState_t s)
{
	return (s.raw & 0x6) != 0;
}

L4_END_C_

#endif
