/* A thread of the process becomes an L4 thread and ends as one; a forked child is none of its parent's. */
#define _POSIX_C_SOURCE 200809L

#include "internal.h"

#include <l4/schedule.h>

#include <errno.h>
#include <limits.h>
#include <poll.h>
#include <pthread.h>
#include <stdio.h>
#include <string.h>
#include <sys/socket.h>
#include <sys/time.h>
#include <sys/un.h>
#include <time.h>
#include <unistd.h>

enum {
	/* in milliseconds, how long l4_disconnect waits for the server to end the thread, */
	PATIENCE = 1000,
	/* how long l4_connect waits for the answer of the server, */
	ANSWER = 10000,
	/* and l4_connect_wait at least, */
	SHORT_ANSWER = 1000,
	/* and how long a while is after which something is tried again */
	PAUSE = 20,
};

/* what it means that the connection ended before the thread was live */
#define TURNED_AWAY " before WELCOME: l4d has no memory or no worker for it, as it says on its standard error, or it ends"
/* what helps where no path is there, and where nobody listens at it */
#define NO_PATH "; start l4d with this folder and so many --spaces"
#define NO_LISTENER "; its l4d has ended (start it with --replace), or the path has had its --connections (--keep-open helps)"
#define NO_PERMISSION "; who may connect is in the mode of the path and of its folder"
/* what helps where a live thread has the number */
#define OTHER_NUMBER "; end the program that has it, or take another number"

/* A thread that returns without l4_disconnect ends its connection too: the key's value is the thread. */
static pthread_key_t ending_key;
static pthread_once_t prepared_once = PTHREAD_ONCE_INIT;
static int prepare_error;

/* The connected threads of the process. The mutex is held while a socket is made or closed, so that no fork is between a
 * socket and its place in the list. */
static pthread_mutex_t connected_mutex = PTHREAD_MUTEX_INITIALIZER;
static struct thread *connected;
/* whether who holds the mutex could be cancelled before; not while it is held, though close may */
static int was_cancellable;

static void hold_list(void)
{
	int state;

	(void) pthread_setcancelstate(PTHREAD_CANCEL_DISABLE, &state);
	(void) pthread_mutex_lock(&connected_mutex);
	was_cancellable = state;
}

static void release_list(void)
{
	int state = was_cancellable, disabled;

	(void) pthread_mutex_unlock(&connected_mutex);
	(void) pthread_setcancelstate(state, &disabled);
}

static void close_of_thread(void *thread)
{
	l4_close(thread);
}

/* In a forked child: the connections stay with the parent, whose threads end as if there were no child. Nothing is sent. */
static void forget_all(void)
{
	(void) pthread_setspecific(ending_key, NULL);
	for (struct thread *thread = connected; thread != NULL; thread = thread->next) {
		close(thread->socket);
		thread->is_connected = thread->is_calling = thread->is_begun = false;
		thread->id = L4_nilthread;
		thread->lost = (struct failure) { .source = FOUND_HERE, .class = 'C', .number = C_IS_FORKED, .saved_errno = ENOTCONN };
	}
	connected = NULL;
	release_list();
}

static void prepare(void)
{
	prepare_error = pthread_key_create(&ending_key, close_of_thread);
	if (prepare_error == 0)
		prepare_error = pthread_atfork(hold_list, release_list, forget_all);
}

/* A socket for the thread, which is in the list with it. 0 or the error. */
static int make_socket(struct thread *thread)
{
	int error = pthread_once(&prepared_once, prepare);

	if (error == 0)
		error = prepare_error;
	if (error == 0)
		error = pthread_setspecific(ending_key, thread);
	if (error != 0)
		return error;
	hold_list();
	thread->socket = socket(AF_UNIX, SOCK_STREAM | SOCK_CLOEXEC, 0);
	if (thread->socket < 0) {
		error = errno;
	} else {
		thread->is_connected = true;
		thread->next = connected;
		thread->link = &connected;
		if (connected != NULL)
			connected->link = &thread->next;
		connected = thread;
	}
	release_list();
	return error;
}

void l4_close(struct thread *thread)
{
	if (!thread->is_connected)
		return;
	(void) pthread_setspecific(ending_key, NULL);
	hold_list();
	*thread->link = thread->next;
	if (thread->next != NULL)
		thread->next->link = thread->link;
	close(thread->socket);
	thread->is_connected = thread->is_calling = thread->is_begun = false;
	thread->id = L4_nilthread;
	release_list();
}

/* The registers of a new thread. The buffer registers are what the program made of them: what it accepts stays. */
static void begin(struct thread *thread, unsigned version)
{
	thread->is_misused = thread->is_calling = thread->is_begun = false;
	thread->version = version;
	thread->last_call.count = 0;
	thread->last_exchange.is_told = false;
	thread->lost = (struct failure) { .source = NOBODY };
	thread->virtual_sender = L4_nilthread;
	thread->name_server = L4_nilthread;
	thread->has_chosen_names = false;
	thread->kept = (struct kept) { 0 };
	thread->owing = (struct owing) { 0 };
	thread->error_code = 0;
}

/* Milliseconds of a clock that nobody sets. */
static int64_t milliseconds(void)
{
	struct timespec now;

	(void) clock_gettime(CLOCK_MONOTONIC, &now);
	return (int64_t) now.tv_sec * 1000 + now.tv_nsec / 1000000;
}

int64_t l4_end_of(L4_Time_t patience)
{
	L4_Word64_t microseconds = l4_microseconds(patience);

	return microseconds == UINT64_MAX ? INT64_MAX : milliseconds() + (int64_t) (microseconds / 1000);
}

/* What poll can wait until this moment. */
static int left_until(int64_t until)
{
	int64_t left = until == INT64_MAX ? INT_MAX : until - milliseconds();

	return left < 0 ? 0 : left > INT_MAX ? INT_MAX : (int) left;
}

L4_Time_t l4_time_until(int64_t until)
{
	return L4_TimePeriod((L4_Word64_t) left_until(until) * 1000);
}

bool l4_pause(int64_t until)
{
	int left = left_until(until);

	(void) poll(NULL, 0, left < PAUSE ? left : PAUSE);
	return left > 0;
}

/* Whether the socket has something to be read before this moment, whatever signals come. */
static bool is_readable(const struct thread *thread, int64_t until)
{
	struct pollfd ready = { .fd = thread->socket, .events = POLLIN };

	for (;;) {
		int count = poll(&ready, 1, left_until(until));

		if (count > 0 || (count == 0 && left_until(until) == 0) || (count < 0 && errno != EINTR))
			return count > 0;
	}
}

/* Connects the socket of the thread, before this moment where the queue of the path is full. 0 or the error. */
static int connect_to(const struct thread *thread, const struct sockaddr_un *address, int64_t until)
{
	struct timeval no_end = { 0, 0 };
	int status;

	do {
		int left = left_until(until);
		/* of no time left none is meant, which would be for ever */
		struct timeval time = { .tv_sec = left / 1000, .tv_usec = left == 0 ? 1 : left % 1000 * 1000 };

		(void) setsockopt(thread->socket, SOL_SOCKET, SO_SNDTIMEO, &time, sizeof time);
		status = connect(thread->socket, (const struct sockaddr *) address, sizeof *address);
	} while (status < 0 && errno == EINTR);
	if (status < 0)
		return errno;
	(void) setsockopt(thread->socket, SOL_SOCKET, SO_SNDTIMEO, &no_end, sizeof no_end);
	return 0;
}

static int hello(struct thread *thread, unsigned number, int64_t until)
{
	const struct hello_2_fields fields = { .number = (uint16_t) number, .version = (uint16_t) thread->version };
	/* version 1 has no field for it */
	const struct hello_fields without_version = { .number = (uint16_t) number };
	bool has_version = thread->version != 1;
	unsigned char frame[LENGTH_BYTES + HELLO_2_BODY];
	struct iovec part = { frame, LENGTH_BYTES + (has_version ? HELLO_2_BODY : HELLO_BODY) };
	unsigned char *at = put_head(frame, part.iov_len - LENGTH_BYTES, HELLO);
	struct welcome_fields welcome;
	const unsigned char *bytes;
	unsigned kind;
	size_t body;

	(void) (has_version ? put_hello_2(at, &fields) : put_hello(at, &without_version));
	if (l4_write(thread, &part, 1) < 0)
		return -1;
	if (!is_readable(thread, until))
		return l4_lose(thread, FOUND_HERE, 'C', C_NO_WELCOME, 0);
	if (l4_read_head(thread, &kind, &body) < 0)
		return -1;
	if (kind != WELCOME)
		return l4_read_refusal(thread, kind, body);
	if (body != WELCOME_BODY)
		return l4_lose(thread, FOUND_HERE, 'F', F_WRONG_SIZE, 0);
	if (l4_take(thread, WELCOME_FIELDS, &bytes) < 0)
		return -1;
	(void) get_welcome(bytes, &welcome);
	thread->id = (L4_ThreadId_t) { welcome.thread };
	if (L4_ThreadNo(thread->id) != number || !L4_IsGlobalId(thread->id))
		return l4_lose(thread, FOUND_HERE, 'C', C_NOT_AN_ANSWER, 0);
	return 0;
}

/* Whether the connection ended before the thread was live. */
static bool is_turned_away(const struct failure *failure)
{
	return failure->class == 'F' && failure->number == F_UNFINISHED;
}

static bool is_number_taken(const struct failure *failure)
{
	return failure->class == 'K' && failure->number == K_NUMBER_TAKEN;
}

/* Tells what was refused of the number and the path. */
static void tell_about_number(struct thread *thread, unsigned number)
{
	(void) snprintf(thread->last.about, sizeof thread->last.about, "number %u at %s", number, thread->path);
	if (is_number_taken(&thread->last))
		thread->last.hint = OTHER_NUMBER;
}

/* One try to connect. What fails is told of the path, and what is refused of the number, too. */
static int try_to_connect(struct thread *thread, const struct sockaddr_un *address, unsigned number, unsigned version, int64_t until)
{
	int error, status = -1;

	begin(thread, version);
	/* longjmp out of here leaves a thread that no call finds ready */
	thread->is_calling = true;
	error = make_socket(thread);
	if (error == 0)
		error = connect_to(thread, address, until);
	if (error == EAGAIN)
		(void) l4_lose(thread, FOUND_HERE, 'C', C_NO_WELCOME, 0);
	else if (error != 0)
		(void) l4_lose(thread, FOUND_HERE, 'F', F_DEVICE, error);
	else
		status = hello(thread, number, until);
	thread->is_calling = false;
	if (status == 0)
		return 0;
	l4_close(thread);
	l4_tell_about(&thread->last, thread->path);
	l4_tell_about(&thread->lost, thread->path);
	if (is_turned_away(&thread->last))
		thread->last.hint = thread->lost.hint = TURNED_AWAY;
	if (error == ENOENT || error == ECONNREFUSED || error == EACCES)
		thread->last.hint = thread->lost.hint = error == ENOENT ? NO_PATH : error == EACCES ? NO_PERMISSION : NO_LISTENER;
	if (thread->last.source == SERVER_REFUSED)
		tell_about_number(thread, number);
	errno = thread->last.saved_errno;
	return -1;
}

/* Whether what failed may be mended by waiting: nobody listens yet, there is no room, or the thread that had the number ends. */
static bool may_come(const struct failure *failure)
{
	if (failure->class == 'F' && failure->number == F_DEVICE)
		return failure->saved_errno == ENOENT || failure->saved_errno == ECONNREFUSED;
	return is_turned_away(failure) || is_number_taken(failure);
}

/* Connects, and tries again until this moment. An answer is waited for until then too, and for so many milliseconds. */
static int connect_until(const char *dir, unsigned space, unsigned number, unsigned version, int64_t until, int answer)
{
	struct thread *thread = &l4_thread;
	struct sockaddr_un address = { .sun_family = AF_UNIX };
	int length;

	if (thread->is_connected)
		return l4_refuse(thread, FOUND_HERE, 'C', C_IS_CONNECTED);
	if (dir == NULL)
		return l4_refuse_null(thread, "l4_connect: dir");
	if (version < FIRST_WIRE_VERSION || version > LAST_WIRE_VERSION)
		return l4_refuse(thread, FOUND_HERE, 'C', C_NO_VERSION);
	if (space < 1 || space > MAX_SPACE) {
		(void) l4_refuse(thread, FOUND_HERE, 'K', K_BAD_NUMBER);
		(void) snprintf(thread->last.about, sizeof thread->last.about, "space %u", space);
		return -1;
	}
	length = snprintf(address.sun_path, sizeof address.sun_path, "%s/space%u", dir, space);
	if (length < 0 || (size_t) length >= sizeof address.sun_path)
		return l4_refuse(thread, FOUND_HERE, 'C', C_NO_PATH);
	memcpy(thread->path, address.sun_path, sizeof address.sun_path);
	/* what a HELLO can ask for; whether there is such a thread the server says */
	if (number > 0xffff) {
		(void) l4_refuse(thread, FOUND_HERE, 'K', K_BAD_NUMBER);
		tell_about_number(thread, number);
		return -1;
	}
	for (;;) {
		int64_t answered = milliseconds() + answer;

		if (try_to_connect(thread, &address, number, version, answered > until ? answered : until) == 0)
			return 0;
		if (!may_come(&thread->last) || !l4_pause(until))
			return -1;
	}
}

int l4_connect(const char *dir, unsigned space, unsigned number)
{
	return l4_connect_version(dir, space, number, 1);
}

int l4_connect_version(const char *dir, unsigned space, unsigned number, unsigned version)
{
	return connect_until(dir, space, number, version, 0, ANSWER);
}

int l4_connect_wait(const char *dir, unsigned space, unsigned number, unsigned version, L4_Time_t patience)
{
	return connect_until(dir, space, number, version, l4_end_of(patience), SHORT_ANSWER);
}

/* Tells the server that the thread ends. Where a call was left, its frame may be half sent, so nothing more can be said. */
static bool say_bye(const struct thread *thread)
{
	unsigned char frame[LENGTH_BYTES + BYE_BODY];
	size_t sent = 0;

	if (thread->is_calling)
		return shutdown(thread->socket, SHUT_WR) == 0;
	(void) put_head(frame, BYE_BODY, BYE);
	while (sent < sizeof frame) {
		ssize_t more = send(thread->socket, frame + sent, sizeof frame - sent, MSG_NOSIGNAL);

		if (more < 0 && errno != EINTR)
			return false;
		sent += more < 0 ? 0 : (size_t) more;
	}
	return true;
}

void l4_disconnect(void)
{
	struct thread *thread = &l4_thread;
	int64_t until = milliseconds() + PATIENCE;
	bool goes_on;

	if (!thread->is_connected)
		return;
	/* The number is free when the server has ended the thread, so that is waited for; but not for ever. What comes before
	 * is the answer of a call that was left. */
	for (goes_on = say_bye(thread); goes_on && is_readable(thread, until);) {
		ssize_t count = recv(thread->socket, thread->input, sizeof thread->input, MSG_DONTWAIT);

		goes_on = count > 0 || (count < 0 && (errno == EINTR || errno == EAGAIN));
	}
	l4_close(thread);
	thread->lost = (struct failure) { .source = NOBODY };
}

int l4_fd(void)
{
	return l4_thread.is_connected ? l4_thread.socket : -1;
}

L4_ThreadId_t L4_Myself(void)
{
	return l4_thread.id;
}

L4_ThreadId_t L4_MyGlobalId(void)
{
	return l4_thread.id;
}

L4_Bool_t l4_last_told(l4_told_t which, L4_Word64_t *number)
{
	const struct told *told = &l4_thread.last_call;
	bool is_told = (size_t) which < told->count;

	if (number != NULL)
		*number = is_told ? told->numbers[which] : 0;
	return is_told;
}

L4_Bool_t l4_last_call(L4_Word_t *number, L4_Word64_t *moment)
{
	L4_Word64_t call;
	bool is_told = l4_last_told(l4_told_call, &call);

	if (number != NULL)
		*number = (L4_Word_t) call;
	(void) l4_last_told(l4_told_moment, moment);
	return is_told;
}

L4_Bool_t l4_last_exchange(L4_Word64_t *moment)
{
	const struct told_moment *told = &l4_thread.last_exchange;

	if (moment != NULL)
		*moment = told->is_told ? told->moment : 0;
	return told->is_told;
}

L4_Word_t L4_ErrorCode(void)
{
	return l4_thread.error_code;
}

L4_ThreadId_t L4_ActualSender(void)
{
	return l4_thread.virtual_sender;
}

void L4_Set_VirtualSender(L4_ThreadId_t t)
{
	l4_thread.virtual_sender = t;
	l4_thread.names_sender = true;
}
