/* A server's loop. */
#define _POSIX_C_SOURCE 200809L

#include "internal.h"

#include <l4/ipc.h>
#include <l4/serve.h>

#include <errno.h>
#include <poll.h>
#include <stdio.h>

enum {
	/* how long is waited before a receive for which the server had no room, in milliseconds */
	PAUSE = 100,
	/* how long trouble of one kind is left out after a line about it, in microseconds */
	QUIET = 1000000,
	/* after how many answers a server pauses before it waits again, how long at least, and how long another one may take for an
	 * answer that the pause is to outlast, in milliseconds */
	ANSWERS = 4000,
	LEAST_PAUSE = 2,
	LONGEST_TURN = 50,
};

/* Trouble of one kind: until when it is left out, and how often it was. */
struct quiet {
	int64_t until;
	unsigned long left_out;
};

/* Whom a server tells of trouble: the program, or where it wants none standard error. */
struct teller {
	l4_trouble_t trouble;
	void *data;
	/* by whether an answer failed, and by the e of an outcome, 0 for what is none */
	struct quiet quiet[2][8];
};

/* Tells how much was left out, and ends the line. */
static void end_line(struct quiet *quiet)
{
	if (quiet->left_out != 0)
		fprintf(stderr, "; %lu more like it were left out", quiet->left_out);
	fputc('\n', stderr);
	*quiet = (struct quiet) { .until = l4_end_of(L4_TimePeriod(QUIET)) };
}

/* A line on standard error, at most one a second of each kind. */
static void print_trouble(struct teller *teller, const struct thread *thread, L4_ThreadId_t to)
{
	const struct failure *last = &thread->last;
	struct quiet *quiet = &teller->quiet[!L4_IsNilThread(to)][last->source == OUTCOME ? last->code >> 1 & 7 : 0];

	if (thread->kept.is_told) {
		fprintf(stderr, "l4_serve: the name %s could not be registered again, and is tried again: %s\n", thread->name, l4_error());
		return;
	}
	if (!L4_IsTimeEqual(l4_time_until(quiet->until), L4_ZeroTime)) {
		quiet->left_out++;
		return;
	}
	if (L4_IsNilThread(to))
		fprintf(stderr, "l4_serve: a request did not come: %s", l4_error());
	else
		fprintf(stderr, "l4_serve: %llu.%llu %s: %s", (unsigned long long) L4_ThreadNo(to), (unsigned long long) L4_Version(to),
			thread->tells_failure ? "gets L4_FUNCTION_FAILED in place of an answer" : "got no answer", l4_error());
	end_line(quiet);
}

/* At the end what was left out behind the last lines. errno stays. */
static void print_left_out(const struct teller *teller)
{
	static const char *const heads[] = { "requests did not come", "got no answer" };
	int saved_errno = errno;

	for (size_t is_answer = 0; is_answer < 2; is_answer++) {
		unsigned long left_out = 0;

		for (size_t e = 0; e < 8; e++)
			left_out += teller->quiet[is_answer][e].left_out;
		if (left_out != 0)
			fprintf(stderr, "l4_serve: %lu more %s\n", left_out, heads[is_answer]);
	}
	errno = saved_errno;
}

static void tell_trouble(struct teller *teller, const struct thread *thread, L4_ThreadId_t to)
{
	if (teller->trouble != NULL)
		teller->trouble(to, teller->data);
	else
		print_trouble(teller, thread, to);
}

/* Whether the server lacked room for the call, of which it may have some later. */
static bool has_no_room(const struct failure *failure)
{
	return failure->source == SERVER_REFUSED && failure->class == 'K' && (failure->number == K_NO_MEMORY || failure->number == K_HISTORY_FULL);
}

/* What a failed call asks of the loop: whom to tell of as unanswered, and whether a receive can be tried again. */
static bool can_go_on(const struct thread *thread, L4_ThreadId_t *unanswered)
{
	const struct failure *failure = &thread->last;
	bool is_answered = failure->source == OUTCOME && failure->code & 1;

	if (!thread->is_connected)
		return false;
	if (failure->source != OUTCOME && L4_IsNilThread(*unanswered)) {
		if (!has_no_room(failure))
			return false;
		(void) poll(NULL, 0, PAUSE);
	}
	if (is_answered)
		*unanswered = L4_nilthread;
	return true;
}

/* Has a request answered. The thread to which the answer goes, L4_nilthread for none. */
static L4_ThreadId_t have_answered(struct thread *thread, l4_answer_t answer, L4_ThreadId_t from, L4_MsgTag_t tag, void *data)
{
	bool is_answered;

	thread->names_sender = false;
	is_answered = answer(from, tag, data);
	if (!thread->names_sender)
		thread->mr[0] &= ~(L4_Word_t) TAG_PROPAGATED;
	return is_answered ? from : L4_nilthread;
}

/* Whether the server lacked room for an answer: nothing of the call was done. */
static bool is_answer_refused(const struct thread *thread, L4_ThreadId_t to)
{
	return thread->is_connected && !L4_IsNilThread(to) && has_no_room(&thread->last);
}

/* Loads the answer anew that the server had no room for; a short one in place of one for which it had no memory. */
static void load_again(struct thread *thread, L4_Word_t tag)
{
	thread->mr[0] = thread->last.number == K_NO_MEMORY ? L4_FUNCTION_FAILED << 16 : tag;
	(void) poll(NULL, 0, PAUSE);
}

/* Whether a receive was over for the names to be registered again. */
static bool is_for_names(const struct failure *failure)
{
	return failure->source == OUTCOME && failure->code == (E_TIMEOUT << 1 | 1);
}

/* Registers the names again. That it fails is told once. */
static void keep_names(struct thread *thread, struct teller *teller)
{
	struct kept *kept = &thread->kept;
	bool fails = l4_keep_names(thread) < 0;

	kept->is_told = fails && !kept->has_failed && thread->is_connected;
	kept->has_failed = fails;
	if (kept->is_told)
		tell_trouble(teller, thread, L4_nilthread);
	kept->is_told = false;
}

/* Leaves out what is taken for the answer to a call that was given up, and tells that. As it may be a request nevertheless its
 * sender is told that it failed; but a name server asks nothing. The thread to which that goes, L4_nilthread for none. */
static L4_ThreadId_t leave(struct thread *thread, struct teller *teller, L4_ThreadId_t from)
{
	const struct phases given_up = { .sends = true, .receives = true, .to = from, .from = from };

	if (L4_ThreadNo(from) == L4_ThreadNo(thread->name_server))
		return L4_nilthread;
	(void) l4_tell_outcome(thread, E_TIMEOUT << 1 | 1, &given_up, 0);
	thread->last.hint = "and what came of it later was taken for that answer";
	thread->tells_failure = true;
	tell_trouble(teller, thread, from);
	thread->mr[0] = L4_FUNCTION_FAILED << 16;
	return from;
}

/* Has a message answered, unless it is no request: the answer to a call that was given up, or what says that another server's
 * function failed. The thread to which the answer goes, L4_nilthread for none. */
static L4_ThreadId_t take(struct thread *thread, l4_answer_t answer, struct teller *teller, L4_ThreadId_t from, L4_MsgTag_t tag)
{
	thread->tells_failure = false;
	if (L4_Label(tag) == L4_FUNCTION_FAILED)
		return L4_nilthread;
	return l4_owed(&thread->owing, from) ? leave(thread, teller, from) : have_answered(thread, answer, from, tag, teller->data);
}

/* How many answers were sent since the last pause, when the last of them was, and how long after it the next message came. */
struct pace {
	unsigned answers;
	int64_t answered_at;
	int64_t turn;
};

/* A message came, after an answer where that was one. */
static void keep_pace(struct pace *pace, bool is_after_answer)
{
	pace->answers += is_after_answer;
	if (pace->answers == ANSWERS && is_after_answer)
		pace->turn = l4_end_of(L4_ZeroTime) - pace->answered_at;
	if (pace->answers == ANSWERS - 1)
		pace->answered_at = l4_end_of(L4_ZeroTime);
}

/* Lets a while pass before the next message is waited for: clients wait meanwhile. Two servers that answer each other's answers,
 * as after a message in the name of one, come to an end so: an answer has zero time, and finds nobody who waits for it. */
static void pause_once(struct pace *pace)
{
	(void) poll(NULL, 0, (int) (pace->turn < LONGEST_TURN ? LEAST_PAUSE + 2 * pace->turn : LEAST_PAUSE));
	*pace = (struct pace) { 0 };
}

/* Whether an answer was not sent since it is none: what the function loaded is at fault. */
static bool is_unsendable(const struct failure *failure, L4_ThreadId_t unanswered)
{
	return failure->source == FOUND_HERE && !L4_IsNilThread(unanswered);
}

static L4_MsgTag_t reply_to(L4_ThreadId_t to)
{
	return L4_IsNilThread(to) ? L4_Niltag : L4_Reply(to);
}

/* Serves until the connection is lost. */
static int serve(struct thread *thread, l4_answer_t answer, struct teller *teller)
{
	L4_ThreadId_t to = L4_nilthread, from;
	struct pace pace = { 0 };
	bool is_refused = false;

	do {
		L4_Time_t patience = l4_names_patience(thread);
		bool is_due = L4_IsTimeEqual(patience, L4_ZeroTime), pauses = pace.answers >= ANSWERS;
		L4_Word_t answer_tag = thread->mr[0];
		L4_MsgTag_t tag = is_due || pauses ? reply_to(to) : L4_ReplyWait_Timeout(to, patience, &from);

		if (L4_IpcFailed(tag) && is_answer_refused(thread, to)) {
			if (!is_refused)
				tell_trouble(teller, thread, L4_nilthread);
			is_refused = true;
			load_again(thread, answer_tag);
			continue;
		}
		is_refused = false;
		if (L4_IpcFailed(tag)) {
			/* in place of what cannot be sent the asker is told so, once */
			thread->tells_failure = !thread->tells_failure && is_unsendable(&thread->last, to);
			if (!can_go_on(thread, &to))
				return -1;
			if (!is_for_names(&thread->last))
				tell_trouble(teller, thread, to);
			if (thread->tells_failure)
				thread->mr[0] = L4_FUNCTION_FAILED << 16;
			else
				to = L4_nilthread;
		} else if (pauses) {
			to = L4_nilthread;
			pause_once(&pace);
		} else if (is_due) {
			to = L4_nilthread;
			keep_names(thread, teller);
		} else {
			keep_pace(&pace, !L4_IsNilThread(to));
			to = take(thread, answer, teller, from, tag);
		}
	} while (thread->is_connected);
	/* the functions ended the connection, or a call of theirs lost it */
	return thread->lost.source == NOBODY ? 0 : l4_refuse(thread, FOUND_HERE, 'C', C_NOT_CONNECTED);
}

int l4_serve(l4_answer_t answer, l4_trouble_t trouble, void *data)
{
	struct thread *thread = &l4_thread;
	struct teller teller = { .trouble = trouble, .data = data };
	int status;

	thread->tells_failure = false;
	if (answer == NULL)
		return l4_refuse_null(thread, "l4_serve: answer");
	status = serve(thread, answer, &teller);
	print_left_out(&teller);
	return status;
}
