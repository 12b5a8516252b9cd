/* Beside the manual: fork, signals, the ends of threads of the process, and calls that longjmp left.
 *
 *     unix DIR ROW */
#define _GNU_SOURCE

#include <l4.h>

#include <errno.h>
#include <fcntl.h>
#include <pthread.h>
#include <setjmp.h>
#include <signal.h>
#include <stdio.h>
#include <stdlib.h>
#include <string.h>
#include <sys/time.h>
#include <sys/wait.h>
#include <unistd.h>

/* ErrorCodes: the partner is not there, the receive timed out, and C10 of a call with and without a send phase. */
enum { NOBODY = 0x4, TIMED_OUT = 0x3, OPEN_CALL = ('C' << 8 | 10) << 4 };

static const char *dir;

static void want_at(int line, bool holds, const char *text)
{
	if (holds)
		return;
	fprintf(stderr, "unix.c:%d: not so: %s: %s\n", line, text, l4_error());
	exit(1);
}

#define WANT(holds) want_at(__LINE__, holds, #holds)

static void *run(pthread_t *thread, void *(*function)(void *), void *argument)
{
	WANT(pthread_create(thread, NULL, function, argument) == 0);
	return argument;
}

/* Another thread of the space is live. */
static bool is_live(L4_ThreadId_t thread)
{
	return !L4_IsNilThread(L4_ExchangeRegisters(thread, 0, 0, 0, 0, 0, L4_nilthread, NULL, NULL, NULL, NULL, NULL, NULL));
}

/* A send to the thread ends soon, because it is not there. */
static bool is_gone_soon(L4_ThreadId_t thread)
{
	for (int tries = 0; tries < 2000; tries++) {
		if (!is_live(thread))
			return L4_ErrorCode() == L4_ErrInvalidThread;
		L4_Sleep(L4_TimePeriod(1000));
	}
	return false;
}

/* A child that lives on until this end of a pipe is closed. */
static pid_t live_child(int *until)
{
	int ends[2];
	pid_t child;

	WANT(pipe2(ends, O_CLOEXEC) == 0);
	child = fork();
	WANT(child >= 0);
	if (child == 0) {
		char byte;
		close(ends[1]);
		_exit(read(ends[0], &byte, 1) == 0 ? 0 : 1);
	}
	close(ends[0]);
	*until = ends[1];
	return child;
}

static void end_child(pid_t child, int until)
{
	int status;

	close(until);
	WANT(waitpid(child, &status, 0) == child && status == 0);
}

/* The destructor of a key of the program ends the L4 thread. In its place, under the same number of a file, another thread's
 * connection stands then. */
static pthread_barrier_t turn;
static pthread_key_t own_key;

static void disconnect_late(void *value)
{
	/* the number of the file is free; the other thread connects now */
	pthread_barrier_wait(&turn);
	pthread_barrier_wait(&turn);
	l4_disconnect();
	(void) value;
}

static void *end_by_destructor(void *unused)
{
	WANT(l4_connect(dir, 1, 2) == 0);
	WANT(pthread_key_create(&own_key, disconnect_late) == 0 && pthread_setspecific(own_key, &own_key) == 0);
	return unused;
}

static void row_destructor(void)
{
	pthread_t other;

	pthread_barrier_init(&turn, NULL, 2);
	run(&other, end_by_destructor, NULL);
	pthread_barrier_wait(&turn);
	WANT(l4_connect(dir, 1, 3) == 0);
	pthread_barrier_wait(&turn);
	pthread_join(other, NULL);
	WANT(L4_IpcFailed(L4_Send(L4_GlobalId(9, 1))) && L4_ErrorCode() == NOBODY);
	WANT(L4_ThreadNo(L4_Myself()) == 3);
}

static void ignore(int signal)
{
	(void) signal;
}

/* A signal each 0.1 ms, whose calls of the system are not made again. */
static void begin_signals(void)
{
	struct sigaction action = { .sa_handler = ignore };
	struct itimerval often = { { 0, 100 }, { 0, 100 } };

	WANT(sigaction(SIGALRM, &action, NULL) == 0 && setitimer(ITIMER_REAL, &often, NULL) == 0);
}

static void row_signals(void)
{
	begin_signals();
	for (int i = 0; i < 300; i++) {
		WANT(l4_connect(dir, 1, 2) == 0);
		l4_disconnect();
	}
}

static void *connect_and_fork(void *until)
{
	static pid_t child;

	WANT(l4_connect(dir, 1, 2) == 0);
	child = live_child(until);
	return &child;
}

/* A thread that returns has ended, though a child of its process lives on. */
static void row_return(void)
{
	pthread_t other;
	void *child;
	int until;

	WANT(l4_connect(dir, 1, 1) == 0);
	run(&other, connect_and_fork, &until);
	pthread_join(other, &child);
	WANT(is_gone_soon(L4_GlobalId(2, 1)));
	/* and those that went on are not of the child either */
	WANT(is_live(L4_Myself()));
	end_child(*(pid_t *) child, until);
	WANT(is_live(L4_Myself()));
}

/* A thread that is cancelled in a wait, again and again, while another one connects and disconnects. */
static void *connect_and_wait(void *ready)
{
	WANT(l4_connect_wait(dir, 1, 2, 1, L4_TimePeriod(5000000)) == 0);
	pthread_barrier_wait(ready);
	L4_Wait(NULL);
	return NULL;
}

static void row_cancel(void)
{
	static pthread_barrier_t ready;
	pthread_t other;

	pthread_barrier_init(&ready, NULL, 2);
	for (int i = 0; i < 20; i++) {
		run(&other, connect_and_wait, &ready);
		pthread_barrier_wait(&ready);
		WANT(l4_connect(dir, 1, 3) == 0);
		WANT(pthread_cancel(other) == 0);
		l4_disconnect();
		pthread_join(other, NULL);
	}
}

/* Threads of a process that is killed have ended, though a child of it lives on. */
static void *connect_and_stay(void *ready)
{
	WANT(l4_connect(dir, 1, 3) == 0);
	pthread_barrier_wait(ready);
	pause();
	return NULL;
}

static void be_killed(int until)
{
	static pthread_barrier_t ready;
	pthread_t other;
	char byte;

	WANT(l4_connect(dir, 1, 2) == 0);
	pthread_barrier_init(&ready, NULL, 2);
	run(&other, connect_and_stay, &ready);
	pthread_barrier_wait(&ready);
	if (fork() == 0)
		_exit(read(until, &byte, 1) == 0 ? 0 : 1);
	raise(SIGKILL);
}

static void row_killed(void)
{
	int ends[2];
	pid_t parent;

	WANT(pipe(ends) == 0);
	parent = fork();
	WANT(parent >= 0);
	if (parent == 0) {
		close(ends[1]);
		be_killed(ends[0]);
	}
	WANT(waitpid(parent, NULL, 0) == parent);
	WANT(l4_connect(dir, 1, 1) == 0);
	WANT(is_gone_soon(L4_GlobalId(2, 1)) && is_gone_soon(L4_GlobalId(3, 1)));
	close(ends[1]);
}

/* A child is no thread of its parent's, and becomes one of its own. */
static void be_child(void)
{
	WANT(L4_IsNilThread(L4_Myself()));
	WANT(L4_IpcFailed(L4_Wait(NULL)) && errno == ENOTCONN && strstr(l4_error(), "since C9: ") != NULL);
	/* says nothing for the parent */
	l4_disconnect();
	WANT(l4_connect(dir, 1, 4) == 0 && L4_ThreadNo(L4_Myself()) == 4);
	L4_Set_MsgTag((L4_MsgTag_t) { 1 });
	L4_LoadMR(1, 21);
	WANT(L4_IpcSucceeded(L4_Send(L4_GlobalId(2, 1))));
	l4_disconnect();
	exit(0);
}

static void row_child(void)
{
	L4_ThreadId_t from;
	L4_Word_t word;
	int status;
	pid_t child;

	WANT(l4_connect(dir, 1, 2) == 0);
	child = fork();
	WANT(child >= 0);
	if (child == 0)
		be_child();
	WANT(L4_IpcSucceeded(L4_Wait(&from)) && L4_ThreadNo(from) == 4);
	L4_StoreMR(1, &word);
	WANT(word == 21);
	WANT(waitpid(child, &status, 0) == child && status == 0);
	WANT(is_live(L4_Myself()));
}

/* A receive that a signal handler leaves: the next calls fail and send nothing, until the thread is another one. */
static sigjmp_buf place;

static void leave(int signal)
{
	(void) signal;
	siglongjmp(place, 1);
}

static void alarm_soon(void (*handler)(int))
{
	struct sigaction action = { .sa_handler = handler };
	struct itimerval once = { { 0, 0 }, { 0, 20000 } };

	WANT(sigaction(SIGALRM, &action, NULL) == 0 && setitimer(ITIMER_REAL, &once, NULL) == 0);
}

/* Leaves a wait after 20 ms. */
static void leave_wait(L4_Time_t timeout)
{
	alarm_soon(leave);
	if (sigsetjmp(place, 1) == 0) {
		L4_Wait_Timeout(timeout, NULL);
		WANT(!"the wait was left");
	}
}

static void use_left_thread(void)
{
	for (int again = 0; again < 2; again++) {
		WANT(L4_IpcFailed(L4_Send(L4_GlobalId(9, 1))) && L4_ErrorCode() == OPEN_CALL && errno == EBUSY);
		WANT(L4_IpcFailed(L4_Wait(NULL)) && L4_ErrorCode() == (OPEN_CALL | 1));
		WANT(!is_live(L4_GlobalId(2, 1)) && L4_ErrorCode() == OPEN_CALL);
	}
	l4_disconnect();
	WANT(l4_connect(dir, 1, 2) == 0);
	WANT(L4_IpcFailed(L4_Send(L4_GlobalId(9, 1))) && L4_ErrorCode() == NOBODY);
	l4_disconnect();
}

/* The wait that was left is over when the next call is made, or it is not. */
static void row_left(void)
{
	WANT(l4_connect(dir, 1, 2) == 0);
	leave_wait(L4_TimePeriod(100000));
	usleep(200000);
	use_left_thread();
	WANT(l4_connect(dir, 1, 2) == 0);
	leave_wait(L4_Never);
	use_left_thread();
}

/* A handler that calls within a receive: its call fails, and the receive goes on. */
static volatile sig_atomic_t nested;

static void call_within(int signal)
{
	(void) signal;
	nested = L4_IpcFailed(L4_Send(L4_GlobalId(9, 1))) && L4_ErrorCode() == OPEN_CALL;
}

static void row_nested(void)
{
	WANT(l4_connect(dir, 1, 2) == 0);
	alarm_soon(call_within);
	WANT(L4_IpcFailed(L4_Wait_Timeout(L4_TimePeriod(100000), NULL)) && L4_ErrorCode() == TIMED_OUT);
	WANT(nested == 1);
	WANT(L4_IpcFailed(L4_Send(L4_GlobalId(9, 1))) && L4_ErrorCode() == NOBODY);
}

int main(int argc, char **argv)
{
	static const struct {
		const char *name;
		void (*run)(void);
	} rows[] = {
		{ "destructor", row_destructor }, { "signals", row_signals }, { "return", row_return }, { "killed", row_killed },
		{ "child", row_child }, { "cancel", row_cancel }, { "left", row_left }, { "nested", row_nested },
	};

	if (argc != 3)
		return 2;
	dir = argv[1];
	for (size_t i = 0; i < sizeof rows / sizeof rows[0]; i++)
		if (strcmp(rows[i].name, argv[2]) == 0) {
			rows[i].run();
			return 0;
		}
	return 2;
}
