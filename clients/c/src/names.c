/* The client's side of docs/NAMES.md. */
#include "internal.h"

#include <l4/ipc.h>
#include <l4/names.h>

#include <errno.h>
#include <string.h>

enum label {
	REGISTER = 1,
	LOOK_UP = 2,
	LIST = 3,
};

enum {
	SERVER_NUMBER = 255,
	/* versions are looked for up to here; after that a server's id has to be given */
	LAST_VERSION = 63,
	/* in microseconds, how long a name is kept before it is registered again, how long after that failed, and how long each
	 * phase of such a call may take: a name server that is stopped keeps a server from its clients no longer */
	KEPT_FOR = 5000000,
	AGAIN_AFTER = 1000000,
	KEEPING = 250000,
	/* and how long each phase of a look up may take at least, however little is left of a wait */
	LEAST_TRY = 100000,
	/* ErrorCode of a send to, and of a receive from, a thread that is not live */
	NOBODY_TO_SEND_TO = E_NON_EXISTING_PARTNER << 1,
	NOBODY_TO_RECEIVE_FROM = E_NON_EXISTING_PARTNER << 1 | 1,
};

struct answer {
	L4_Word_t error;
	L4_ThreadId_t thread;
	size_t name_bytes;
	char name[L4_NAME_BYTES];
};

void l4_use_name_server(L4_ThreadId_t server)
{
	l4_thread.name_server = server;
	l4_thread.has_chosen_names = !L4_IsNilThread(server);
}

/* 1 where a thread of this id is live, 0 where not, -1 where that cannot be asked. A closed receive with zero time
 * disturbs nobody. */
static int is_live(struct thread *thread, L4_ThreadId_t id)
{
	if (L4_IpcSucceeded(L4_Receive_Timeout(id, L4_ZeroTime)))
		return 1;
	if (thread->last.source != OUTCOME)
		return -1;
	return L4_ErrorCode() != NOBODY_TO_RECEIVE_FROM;
}

/* Finds the server from this version on. */
static int find_server(struct thread *thread, L4_Word_t version)
{
	for (; version <= LAST_VERSION; version++) {
		L4_ThreadId_t id = L4_GlobalId(SERVER_NUMBER, version);
		int found = is_live(thread, id);

		if (found < 0)
			return -1;
		thread->name_server = id;
		if (found > 0)
			return 0;
	}
	thread->name_server = L4_nilthread;
	return l4_refuse(thread, FOUND_HERE, 'N', N_NO_NAME_SERVER);
}

/* What is asked of the server, and how long each phase may take. */
struct request {
	enum label label;
	const char *name;
	L4_Time_t patience;
};

/* One call of the server. 0, or -1 as for each failed Ipc. */
static int call(struct thread *thread, const struct request *request, struct answer *answer)
{
	L4_Msg_t msg;
	L4_MsgTag_t tag;

	L4_MsgClear(&msg);
	L4_Set_MsgLabel(&msg, request->label);
	L4_MsgAppendSimpleStringItem(&msg, L4_StringItem((int) strlen(request->name), (char *) request->name));
	L4_MsgLoad(&msg);
	tag = L4_Call_Timeouts(thread->name_server, request->patience, request->patience);
	if (L4_IpcFailed(tag))
		return -1;
	L4_MsgStore(tag, &msg);
	answer->error = L4_Label(tag);
	answer->thread.raw = L4_UntypedWords(tag) > 0 ? L4_MsgWord(&msg, 0) : 0;
	answer->name_bytes = L4_TypedWords(tag) > 0 ? item_length(msg.raw[1 + L4_UntypedWords(tag)]) : 0;
	return 0;
}

/* The call, of the next server where the one that was known has ended. */
static int call_live(struct thread *thread, const struct request *request, struct answer *answer)
{
	if (L4_IsNilThread(thread->name_server) && find_server(thread, 1) < 0)
		return -1;
	while (call(thread, request, answer) < 0) {
		if (thread->last.source != OUTCOME || L4_ErrorCode() != NOBODY_TO_SEND_TO)
			return -1;
		if (thread->has_chosen_names)
			return l4_refuse(thread, FOUND_HERE, 'N', N_NO_NAME_SERVER);
		if (find_server(thread, L4_Version(thread->name_server) + 1) < 0)
			return -1;
	}
	return 0;
}

static bool is_name(const char *name)
{
	size_t length = strlen(name);

	for (const char *byte = name; *byte != 0; byte++)
		if (*byte < 0x21 || *byte > 0x7e)
			return false;
	return length <= L4_NAME_BYTES;
}

/* Whether the name server did not answer in time. */
static bool is_timeout(const struct failure *failure)
{
	return failure->source == OUTCOME && (failure->code >> 1 & 7) == E_TIMEOUT;
}

/* The call of the server had an outcome that is an error: it did not answer in time; or it ended in midst of the call, or somebody
 * cancelled it, which no number of the system says. */
static void tell_of_call(struct thread *thread)
{
	bool is_late = is_timeout(&thread->last);

	l4_tell_about(&thread->last, thread->name);
	if (is_late)
		thread->last.hint = "the name server did not answer";
	errno = is_late ? ETIMEDOUT : EIO;
}

/* A request, with a buffer for the answer's name in place of the caller's buffers. What the caller has in its registers stays. */
static int ask(enum label label, const char *name, L4_Time_t patience, struct answer *answer)
{
	const struct request request = { label, name, patience };
	struct thread *thread = &l4_thread;
	L4_ThreadId_t virtual_sender = thread->virtual_sender;
	L4_Word_t message[MESSAGE_REGISTERS], buffers[BUFFER_REGISTERS];
	L4_MsgBuffer_t buffer;
	int status;

	thread->name[0] = 0;
	if (name == NULL || !is_name(name) || (label != LIST && *name == 0))
		return l4_refuse(thread, FOUND_HERE, 'N', N_BAD_NAME);
	strcpy(thread->name, name);
	if (thread->is_calling)
		return l4_refuse(thread, FOUND_HERE, 'C', C_CALL_IS_OPEN);
	L4_StoreMRs(0, MESSAGE_REGISTERS, message);
	L4_StoreBRs(0, BUFFER_REGISTERS, buffers);
	L4_MsgBufferClear(&buffer);
	L4_MsgBufferAppendSimpleRcvString(&buffer, L4_StringItem(L4_NAME_BYTES, answer->name));
	L4_AcceptStrings(L4_StringItemsAcceptor, &buffer);
	status = call_live(thread, &request, answer);
	L4_LoadBRs(0, BUFFER_REGISTERS, buffers);
	L4_LoadMRs(0, MESSAGE_REGISTERS, message);
	thread->virtual_sender = virtual_sender;
	if (status < 0 && thread->last.source == OUTCOME)
		tell_of_call(thread);
	if (status == 0 && answer->error != 0)
		return l4_refuse(thread, SERVER_REFUSED, 'N', (unsigned) (answer->error < 0xff ? answer->error : 0xff));
	return status;
}

/* Whether the name server answered that nobody has the name. */
static bool is_nobody(const struct failure *failure)
{
	return failure->class == 'N' && failure->number == N_NOBODY_HAS_NAME;
}

/* Whether the name server ended while it had the request. */
static bool has_ended(const struct failure *failure)
{
	return failure->source == OUTCOME && failure->code == NOBODY_TO_RECEIVE_FROM;
}

/* Whether a name may be found later, as it was not now. */
static bool is_not_there_yet(const struct failure *failure)
{
	return is_timeout(failure) || has_ended(failure) || is_nobody(failure) || (failure->class == 'N' && failure->number == N_NO_NAME_SERVER);
}

/* How long each phase of a request may take, so that both together end by this moment. */
static L4_Time_t half_until(int64_t until)
{
	L4_Word64_t left = l4_microseconds(l4_time_until(until));

	if (until == INT64_MAX)
		return L4_Never;
	return L4_TimePeriod(left / 2 > LEAST_TRY ? left / 2 : LEAST_TRY);
}

/* Keeps a name that was registered. */
static void keep(struct kept *kept, const char *name)
{
	size_t at = 0;

	while (at < kept->count && strcmp(kept->names[at], name) != 0)
		at++;
	if (at == KEPT_NAMES)
		return;
	if (at == kept->count)
		strcpy(kept->names[kept->count++], name);
	kept->due = l4_end_of(L4_TimePeriod(KEPT_FOR));
}

int l4_register(const char *name)
{
	struct answer answer = { 0 };

	if (ask(REGISTER, name, L4_Never, &answer) < 0)
		return -1;
	keep(&l4_thread.kept, name);
	return 0;
}

int l4_register_wait(const char *name, L4_Time_t patience)
{
	int64_t until = l4_end_of(patience);
	struct answer answer = { 0 };
	int status;

	do
		status = ask(REGISTER, name, half_until(until), &answer);
	while (status < 0 && is_not_there_yet(&l4_thread.last) && l4_pause(until));
	if (status < 0)
		return -1;
	keep(&l4_thread.kept, name);
	return 0;
}

L4_Time_t l4_names_patience(const struct thread *thread)
{
	return thread->kept.count == 0 ? L4_Never : l4_time_until(thread->kept.due);
}

int l4_keep_names(struct thread *thread)
{
	struct kept *kept = &thread->kept;
	struct failure failure = { 0 };
	struct answer answer = { 0 };
	size_t failed = 0;

	for (size_t i = 0; i < kept->count && thread->is_connected; i++)
		if (ask(REGISTER, kept->names[i], L4_TimePeriod(KEEPING), &answer) < 0) {
			failure = thread->last;
			failed = i + 1;
		}
	kept->due = l4_end_of(L4_TimePeriod(failed ? AGAIN_AFTER : KEPT_FOR));
	if (failed == 0)
		return 0;
	strcpy(thread->name, kept->names[failed - 1]);
	thread->last = failure;
	return -1;
}

static L4_ThreadId_t look_up(const char *name, L4_Time_t patience)
{
	struct answer answer = { 0 };

	if (ask(LOOK_UP, name, patience, &answer) < 0)
		return L4_nilthread;
	if (L4_IsNilThread(answer.thread))
		(void) l4_refuse(&l4_thread, FOUND_HERE, 'N', N_NOBODY_HAS_NAME);
	return answer.thread;
}

L4_ThreadId_t l4_lookup_wait(const char *name, L4_Time_t patience)
{
	int64_t until = l4_end_of(patience);
	bool is_answered = false;
	L4_ThreadId_t found;

	do {
		found = look_up(name, half_until(until));
		is_answered = is_answered || is_nobody(&l4_thread.last);
	} while (L4_IsNilThread(found) && is_not_there_yet(&l4_thread.last) && l4_pause(until));
	/* the last try may have had little time: a server that answered before is not to blame */
	if (L4_IsNilThread(found) && is_answered && is_timeout(&l4_thread.last))
		(void) l4_refuse(&l4_thread, FOUND_HERE, 'N', N_NOBODY_HAS_NAME);
	return found;
}

L4_ThreadId_t l4_lookup(const char *name)
{
	return look_up(name, L4_Never);
}

int l4_list(const char *after, char name[L4_NAME_BYTES + 1], L4_ThreadId_t *thread)
{
	struct answer answer = { 0 };

	if (name == NULL || thread == NULL)
		return l4_refuse_null(&l4_thread, name == NULL ? "l4_list: name" : "l4_list: thread");
	if (ask(LIST, after, L4_Never, &answer) < 0)
		return -1;
	if (L4_IsNilThread(answer.thread))
		return 0;
	memcpy(name, answer.name, answer.name_bytes);
	name[answer.name_bytes] = 0;
	*thread = answer.thread;
	return 1;
}
