/* Why a call failed, as errno, as ErrorCode and in words. */
#include "internal.h"
#include "meanings.h"

#include <errno.h>
#include <stdarg.h>
#include <stdio.h>
#include <string.h>

static const struct meaning *meaning_of(char class, unsigned number)
{
	static const struct meaning unknown = { 0, 0, EPROTO, "a number that is not known here" };

	for (size_t i = 0; i < sizeof meanings / sizeof meanings[0]; i++)
		if (meanings[i].class == class && meanings[i].number == number)
			return &meanings[i];
	return &unknown;
}

static struct failure failure_of(enum source source, char class, unsigned number, int cause)
{
	return (struct failure) {
		.source = source,
		.class = class,
		.number = (uint8_t) number,
		.code = ((L4_Word_t) (unsigned char) class << 8 | (number & 0xff)) << 4,
		.saved_errno = cause != 0 ? cause : meaning_of(class, number)->saved_errno,
	};
}

void l4_tell_about(struct failure *failure, const char *about)
{
	strcpy(failure->about, about);
}

static int tell(struct thread *thread, struct failure failure)
{
	if (failure.class == 'N')
		l4_tell_about(&failure, thread->name);
	thread->last = failure;
	thread->error_code = failure.code;
	errno = failure.saved_errno;
	return -1;
}

int l4_tell_outcome(struct thread *thread, L4_Word_t code, const struct phases *phases, unsigned string)
{
	thread->last = (struct failure) { .source = OUTCOME, .code = code, .phases = *phases, .string = string };
	thread->error_code = code;
	return -1;
}

int l4_refuse(struct thread *thread, enum source source, char class, unsigned number)
{
	return tell(thread, failure_of(source, class, number, 0));
}

int l4_refuse_null(struct thread *thread, const char *argument)
{
	int status = l4_refuse(thread, FOUND_HERE, 'C', C_NO_MEMORY_THERE);

	(void) snprintf(thread->last.about, sizeof thread->last.about, "%s is NULL", argument);
	return status;
}

int l4_lose(struct thread *thread, enum source source, char class, unsigned number, int cause)
{
	l4_close(thread);
	thread->lost = failure_of(source, class, number, cause);
	/* what is at fault is the server of this path; what the library says of an answer is said of the answer */
	if (source == SERVER_FAULT || class == 'F')
		l4_tell_about(&thread->lost, thread->path);
	return tell(thread, thread->lost);
}

/* Text that is put together piece by piece; what does not fit is cut off. */
struct text {
	char *at;
	size_t room;
};

static void append(struct text *text, const char *format, ...)
{
	va_list values;
	int count;

	va_start(values, format);
	count = vsnprintf(text->at, text->room, format, values);
	va_end(values);
	if (count > 0 && (size_t) count < text->room) {
		text->at += count;
		text->room -= (size_t) count;
	} else {
		text->room = 0;
	}
}

static void append_partner(struct text *text, bool is_receive, L4_ThreadId_t partner)
{
	append(text, is_receive ? "receive phase from " : "send phase to ");
	if (L4_IsThreadEqual(partner, L4_anythread))
		append(text, "any thread");
	else if (L4_IsThreadEqual(partner, L4_anylocalthread))
		append(text, "any thread of the space");
	else if (L4_IsNilThread(partner))
		append(text, "L4_nilthread");
	else
		append(text, "%llu.%llu", (unsigned long long) L4_ThreadNo(partner), (unsigned long long) L4_Version(partner));
}

/* What did not fit in a receive phase; and that the send phase before it went well, so that nobody sends that again. */
static void append_receive_overflow(struct text *text, const struct phases *phases)
{
	append(text, phases->buffer_words == 0 ? ", no strings were accepted" : ", a string did not fit the buffers that were accepted");
	if (!phases->sends)
		append(text, ", and nothing was received");
	else if (L4_IsThreadEqual(phases->from, phases->to))
		append(text, "; what was sent was delivered, and no answer came");
	else
		append(text, "; what was sent was delivered, and nothing was received");
}

static void append_send_overflow(struct text *text, unsigned string)
{
	if (string != 0)
		append(text, ", string %u did not fit the receiver's buffers", string);
	append(text, ", and nothing was delivered");
}

/* How long it was waited for a partner, as the period had it: a period has ten bits. */
static void append_waited(struct text *text, L4_Word64_t microseconds)
{
	double seconds = (double) microseconds / 1e6;

	append(text, seconds < 9.95 ? ", after waiting for %.2g s" : ", after waiting for %.0f s", seconds);
}

static void append_outcome(struct text *text, const struct failure *outcome)
{
	bool is_receive = outcome->code & 1;
	unsigned error = outcome->code >> 1 & 7;

	append_partner(text, is_receive, is_receive ? outcome->phases.from : outcome->phases.to);
	append(text, ": %s (e=%u, offset %llu)", errors[error], error, (unsigned long long) (outcome->code >> 4));
	if (error == E_MESSAGE_OVERFLOW && is_receive)
		append_receive_overflow(text, &outcome->phases);
	else if (error == E_MESSAGE_OVERFLOW)
		append_send_overflow(text, outcome->string);
	else if (error == E_NON_EXISTING_PARTNER && is_receive && outcome->phases.sends && L4_IsThreadEqual(outcome->phases.from, outcome->phases.to))
		append(text, ", which has ended, or the thread to which it passed the message on");
	if (outcome->waited != 0)
		append_waited(text, outcome->waited);
	if (outcome->hint != NULL)
		append(text, ", %s", outcome->hint);
	if (outcome->about[0] != 0)
		append(text, " (%s)", outcome->about);
}

static void append_number(struct text *text, const struct failure *failure)
{
	static const char *const heads[] = {
		[NOBODY] = "", [OUTCOME] = "", [SERVER_REFUSED] = "REFUSED ", [SERVER_FAULT] = "FAULT ", [FOUND_HERE] = "",
	};
	const struct meaning *meaning = meaning_of(failure->class, failure->number);

	append(text, "%s%c%u: %s", heads[failure->source], failure->class, failure->number, meaning->text);
	/* what the system said tells more than its number here */
	if (failure->saved_errno != meaning->saved_errno)
		append(text, ": %s", strerror(failure->saved_errno));
	if (failure->hint != NULL)
		append(text, "%s", failure->hint);
	if (failure->about[0] != 0)
		append(text, " (%s)", failure->about);
}

const char *l4_error(void)
{
	struct thread *thread = &l4_thread;
	const struct failure *last = &thread->last;
	struct text text = { thread->text, sizeof thread->text };

	if (last->source == NOBODY)
		return "no error";
	if (last->source == OUTCOME)
		append_outcome(&text, last);
	else
		append_number(&text, last);
	if (last->class == 'C' && last->number == C_NOT_CONNECTED && thread->lost.source != NOBODY) {
		append(&text, ", since ");
		append_number(&text, &thread->lost);
	}
	return thread->text;
}
