/* Propagation: a gateway passes requests on in the name of who asked, and the server behind it answers the asker itself.
 *
 *     gateway DIR answer                thread 8: doubles each word
 *     gateway DIR pass ANSWERER         thread 9: the gateway; ANSWERER is answerer or an id
 *     gateway DIR ask GATEWAY WORD      thread 14: GATEWAY is gateway or an id */
#include "common.h"

#include <string.h>

/* The label of an answer without a word. */
enum { DENIED = 1 };

static void print_id(const char *what, L4_ThreadId_t thread)
{
	printf("%s %llu.%llu", what, (unsigned long long) L4_ThreadNo(thread), (unsigned long long) L4_Version(thread));
}

/* Loads what tells an asker that there is no answer. */
static L4_Bool_t deny(void)
{
	L4_Set_MsgTag(L4_MsgTagAddLabel(L4_Niltag, DENIED));
	return true;
}

static L4_Bool_t answer(L4_ThreadId_t from, L4_MsgTag_t tag, void *unused)
{
	L4_Word_t word;

	(void) unused;
	if (L4_UntypedWords(tag) != 1)
		return deny();
	L4_StoreMR(1, &word);
	print_id("from", from);
	if (L4_IpcPropagated(tag))
		print_id(", by", L4_ActualSender());
	printf(": %llu\n", (unsigned long long) word);
	fflush(stdout);
	L4_Set_MsgTag((L4_MsgTag_t) { 1 });
	L4_LoadMR(1, 2 * word);
	return true;
}

/* Passes a request on. Who asked waits for the gateway; from now on it waits for the answerer. */
static L4_Bool_t pass(L4_ThreadId_t from, L4_MsgTag_t tag, void *data)
{
	const L4_ThreadId_t *answerer = data;

	/* the words stand where they came */
	L4_Set_Propagation(&tag);
	L4_Set_MsgTag(tag);
	L4_Set_VirtualSender(from);
	/* an answerer that is stopped holds nobody up for more than a second */
	if (L4_IpcSucceeded(L4_Send_Timeout(*answerer, L4_TimePeriod(1000000))))
		return false;
	fprintf(stderr, "pass: %s\n", l4_error());
	return deny();
}

static void ask(L4_ThreadId_t gateway, L4_Word_t word)
{
	L4_ThreadId_t from;
	L4_MsgTag_t tag;

	L4_Set_MsgTag((L4_MsgTag_t) { 1 });
	L4_LoadMR(1, word);
	/* L4_Call, which does not tell who answered */
	tag = L4_Ipc(gateway, gateway, L4_Timeouts(L4_Never, L4_Never), &from);
	if (L4_IpcFailed(tag))
		fail("ask");
	if (L4_Label(tag) == DENIED || L4_UntypedWords(tag) != 1) {
		print_id("denied by", from);
		printf("\n");
		exit(1);
	}
	L4_StoreMR(1, &word);
	print_id("from", from);
	printf(": %llu\n", (unsigned long long) word);
}

int main(int argc, char **argv)
{
	if (argc == 3 && strcmp(argv[2], "answer") == 0) {
		connect_as(argv[1], 8);
		serve("answerer", answer, NULL);
	} else if (argc == 4 && strcmp(argv[2], "pass") == 0) {
		L4_ThreadId_t answerer;

		connect_as(argv[1], 9);
		answerer = thread_of(argv[3]);
		serve("gateway", pass, &answerer);
	} else if (argc == 5 && strcmp(argv[2], "ask") == 0) {
		connect_as(argv[1], 14);
		ask(thread_of(argv[3]), strtoull(argv[4], NULL, 0));
		l4_disconnect();
	} else {
		fprintf(stderr, "usage: gateway DIR answer | gateway DIR pass ANSWERER | gateway DIR ask GATEWAY WORD\n");
		return 2;
	}
	return 0;
}
