/* A cancel from a third thread, in one process of three: thread 11 never answers, thread 12 calls it and waits for the answer, and
 * thread 13 ends that wait by ExchangeRegisters.
 *
 *     cancel DIR */
#include "common.h"

#include <pthread.h>
#include <stdatomic.h>

/* R and S of the control word of ExchangeRegisters */
enum { STOP_RECEIVE = 0x2, STOP_SEND = 0x4 };

static const char *dir;
/* the ids that the threads tell each other, as words */
static _Atomic L4_Word_t silent_id, caller_id;

/* The id that another thread of the process tells, when it is there. */
static L4_ThreadId_t wait_for(_Atomic L4_Word_t *id)
{
	while (atomic_load(id) == 0) {
		L4_Sleep(L4_TimePeriod(1000));
		/* no time is slept away without a connection */
		if (L4_IsNilThread(L4_Myself()))
			fail("wait_for");
	}
	return (L4_ThreadId_t) { atomic_load(id) };
}

static void *be_silent(void *unused)
{
	L4_ThreadId_t caller;

	connect_as(dir, 11);
	atomic_store(&silent_id, L4_Myself().raw);
	caller = wait_for(&caller_id);
	/* from the caller alone, whoever else is there */
	if (L4_IpcFailed(L4_Receive(caller)))
		fail("silent");
	printf("silent: a request from %llu.%llu, and no answer\n", (unsigned long long) L4_ThreadNo(caller),
	       (unsigned long long) L4_Version(caller));
	/* until the caller has ended: the receive fails then */
	(void) L4_Receive(caller);
	l4_disconnect();
	return unused;
}

static void *call(void *unused)
{
	L4_ThreadId_t silent;

	connect_as(dir, 12);
	silent = wait_for(&silent_id);
	atomic_store(&caller_id, L4_Myself().raw);
	L4_Set_MsgTag(L4_Niltag);
	if (L4_IpcSucceeded(L4_Call(silent)))
		printf("caller: an answer\n");
	else
		printf("caller: %s, ErrorCode 0x%llx\n", l4_error(), (unsigned long long) L4_ErrorCode());
	l4_disconnect();
	return unused;
}

static void *cancel(void *unused)
{
	L4_ThreadId_t caller;
	L4_ThreadState_t state = { 0 };

	connect_as(dir, 13);
	caller = wait_for(&caller_id);
	/* until the caller is in the receive phase of its call; R stops no send phase */
	while (!L4_ThreadWasReceiving(state)) {
		L4_Sleep(L4_TimePeriod(1000));
		if (L4_IsNilThread(L4_ExchangeRegisters(caller, STOP_RECEIVE, 0, 0, 0, 0, L4_nilthread, &state.raw, NULL,
							NULL, NULL, NULL, NULL)))
			fail("cancel");
	}
	printf("canceller: it was in its receive phase\n");
	l4_disconnect();
	return unused;
}

int main(int argc, char **argv)
{
	void *(*const roles[])(void *) = { be_silent, call, cancel };
	pthread_t threads[3];

	if (argc != 2) {
		fprintf(stderr, "usage: cancel DIR\n");
		return 2;
	}
	dir = argv[1];
	for (int i = 0; i < 3; i++)
		if (pthread_create(&threads[i], NULL, roles[i], NULL) != 0)
			return 1;
	for (int i = 0; i < 3; i++)
		pthread_join(threads[i], NULL);
	return 0;
}
