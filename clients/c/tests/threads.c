/* Several threads of one process: each has registers and an L4 thread of its own, and one that returns without l4_disconnect ends
 * its L4 thread all the same.
 *
 *     threads DIR */
#define _POSIX_C_SOURCE 200809L

#include <l4.h>

#include <pthread.h>
#include <stdio.h>
#include <stdlib.h>

enum { COUNT = 8, FIRST = 20, ROUNDS = 200, PATIENCE = 2000 };

static const char *dir;
static L4_Word_t ids[COUNT];
static pthread_barrier_t all;

static void want(bool holds, const char *what)
{
	if (holds)
		return;
	fprintf(stderr, "threads: %s: %s\n", what, l4_error());
	exit(1);
}

/* Thread k sends words to thread k + 1 and receives from thread k - 1, the even ones first the one and the odd ones the other. */
static void *run(void *argument)
{
	size_t k = (size_t) (uintptr_t) argument;
	L4_ThreadId_t next, previous;
	L4_Word_t word;

	want(l4_connect(dir, 1, FIRST + (unsigned) k) == 0, "connect");
	want(L4_ThreadNo(L4_Myself()) == FIRST + k, "an id of its own");
	ids[k] = L4_Myself().raw;
	pthread_barrier_wait(&all);
	next.raw = ids[(k + 1) % COUNT];
	previous.raw = ids[(k + COUNT - 1) % COUNT];
	for (L4_Word_t i = 0; i < ROUNDS; i++)
		for (int turn = 0; turn < 2; turn++) {
			if ((size_t) turn == k % 2) {
				L4_Set_MsgTag((L4_MsgTag_t) { 1 });
				L4_LoadMR(1, 1000 * k + i);
				want(L4_IpcSucceeded(L4_Send(next)), "send");
			} else {
				want(L4_IpcSucceeded(L4_Receive(previous)), "receive");
				L4_StoreMR(1, &word);
				want(word == 1000 * ((k + COUNT - 1) % COUNT) + i, "the word of the thread before");
			}
		}
	return NULL;
}

int main(int argc, char **argv)
{
	pthread_t threads[COUNT];

	if (argc != 2)
		return 2;
	dir = argv[1];
	want(l4_connect(dir, 1, FIRST + COUNT) == 0, "connect");
	pthread_barrier_init(&all, NULL, COUNT);
	for (size_t k = 0; k < COUNT; k++)
		want(pthread_create(&threads[k], NULL, run, (void *) (uintptr_t) k) == 0, "pthread_create");
	for (size_t k = 0; k < COUNT; k++)
		pthread_join(threads[k], NULL);
	for (size_t k = 0; k < COUNT; k++) {
		int left = PATIENCE;

		while (!L4_IsNilThread(L4_ExchangeRegisters((L4_ThreadId_t) { ids[k] }, 0, 0, 0, 0, 0, L4_nilthread, NULL, NULL,
							    NULL, NULL, NULL, NULL))) {
			want(left-- > 0, "a thread that returned is live still");
			L4_Sleep(L4_TimePeriod(1000));
		}
		want(L4_ErrorCode() == L4_ErrInvalidThread, "the thread has ended");
	}
	printf("%d\n", COUNT * ROUNDS);
	return 0;
}
