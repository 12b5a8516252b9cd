/* The types of words, and what composes messages: each value is one that docs/FORMATS.md or the manual gives. */
#include <l4.h>

#include <errno.h>
#include <stdio.h>
#include <stdlib.h>
#include <string.h>

static int checks;

static void check_at(int line, bool holds, const char *text)
{
	checks++;
	if (!holds) {
		fprintf(stderr, "words.c:%d: not so: %s\n", line, text);
		exit(1);
	}
}

#define CHECK(holds) check_at(__LINE__, holds, #holds)

static void check_ids(void)
{
	L4_ThreadId_t thread = L4_GlobalId(2, 65);

	CHECK(thread.raw == 0x200000041);
	CHECK(L4_GlobalId(1, 1).raw == 0x100000001);
	CHECK(L4_ThreadNo(thread) == 2 && L4_Version(thread) == 65);
	CHECK(L4_nilthread.raw == 0);
	CHECK(L4_anythread.raw == 0xffffffffffffffff);
	CHECK(L4_anylocalthread.raw == 0xffffffffffffffc0);
	CHECK(L4_IsNilThread(L4_nilthread) && !L4_IsNilThread(thread));
	CHECK(L4_IsThreadEqual(thread, thread) && !L4_IsThreadEqual(thread, L4_GlobalId(2, 66)));
	CHECK(L4_IsThreadNotEqual(thread, L4_GlobalId(3, 65)) && L4_SameThreads(thread, thread));
	CHECK(L4_IsGlobalId(thread) && !L4_IsLocalId(thread));
	CHECK(L4_IsLocalId(L4_anylocalthread) && !L4_IsGlobalId(L4_anylocalthread));
	CHECK(!L4_IsLocalId(L4_nilthread) && !L4_IsGlobalId(L4_nilthread));
	/* not connected: no thread, and each call says so */
	CHECK(L4_IsNilThread(L4_Myself()) && L4_IsNilThread(L4_MyGlobalId()));
	CHECK(strcmp(l4_error(), "no error") == 0);
}

static void check_states(void)
{
	L4_ThreadState_t receiving = { 0x2 }, sending = { 0x4 }, neither = { 0 };

	CHECK(L4_ThreadWasReceiving(receiving) && !L4_ThreadWasSending(receiving) && L4_ThreadWasIpcing(receiving));
	CHECK(!L4_ThreadWasReceiving(sending) && L4_ThreadWasSending(sending) && L4_ThreadWasIpcing(sending));
	CHECK(!L4_ThreadWasIpcing(neither));
}

static void check_tags(void)
{
	L4_MsgTag_t tag = { 0x30081 };

	CHECK(L4_Label(tag) == 3 && L4_TypedWords(tag) == 2 && L4_UntypedWords(tag) == 1);
	CHECK(L4_MsgTagAddLabel((L4_MsgTag_t) { 0x81 }, 3).raw == 0x30081);
	CHECK(L4_MsgTagAddLabelTo(&tag, 4).raw == 0x40081 && tag.raw == 0x40081);
	CHECK(L4_IpcFailed((L4_MsgTag_t) { 0x8000 }) && !L4_IpcSucceeded((L4_MsgTag_t) { 0x8000 }));
	CHECK(L4_IpcSucceeded(L4_Niltag) && !L4_IpcPropagated(L4_Niltag));
	CHECK(L4_IsMsgTagEqual(tag, tag) && L4_IsMsgTagNotEqual(tag, L4_Niltag));
	tag = (L4_MsgTag_t) { 1 };
	L4_Set_Propagation(&tag);
	CHECK(tag.raw == 0x1001 && L4_IpcPropagated(tag));
	L4_Set_MsgTag(tag);
	CHECK(L4_MsgTag().raw == 0x1001);
}

static void check_periods(void)
{
	static const struct { L4_Word64_t micros; L4_Word16_t raw; } rows[] = {
		{ 0, 0x400 }, { 5, 0x5 }, { 1023, 0x3ff }, { 1024, 0x600 }, { 2000, 0x7e8 }, { 200, 0xc8 },
		{ 1000000, 0x2bd1 }, { 1000448, 0x2bd1 }, { 1000449, 0x2bd2 }, { 1024000, 0x2be8 },
		{ 2196875771904, 0x7fff }, { 2196875771905, 0 }, { UINT64_MAX, 0 },
	};
	L4_Time_t time = L4_TimePeriod(5);

	for (size_t i = 0; i < sizeof rows / sizeof rows[0]; i++)
		CHECK(L4_TimePeriod(rows[i].micros).raw == rows[i].raw);
	CHECK(L4_Never.raw == 0 && L4_ZeroTime.raw == 0x400);
	CHECK(L4_Timeouts(L4_ZeroTime, L4_Never) == 0x4000000);
	CHECK(L4_Timeouts(L4_Never, time) == 0x5 && L4_Timeouts(time, L4_Never) == 0x50000);
	CHECK(L4_IsTimeEqual((L4_Time_t) { 0x832 }, L4_TimePeriod(200)) && (L4_Time_t) { 0x832 }.raw != 200);
	CHECK(L4_IsTimeLonger(L4_Never, (L4_Time_t) { 0x7fff }) && L4_IsTimeShorter(L4_ZeroTime, time));
	CHECK(L4_IsTimeLongerOrEqual(time, time) && L4_IsTimeShorterOrEqual(time, time));
	CHECK(L4_IsTimeNotEqual(time, L4_ZeroTime) && !L4_IsTimeNotEqual(time, time));
	CHECK(L4_TimeAddWord(time, 7).raw == 12 && L4_TimeSubWord(time, 2).raw == 3);
	CHECK(L4_TimeSubWord(time, 6).raw == 0x400 && L4_TimeSub(time, L4_Never).raw == 0x400);
	CHECK(L4_TimeAdd(time, time).raw == 10 && L4_TimeSub(time, time).raw == 0x400);
	CHECK(L4_TimeAdd(time, L4_Never).raw == 0 && L4_TimeSub(L4_Never, time).raw == 0);
	CHECK(L4_TimeAddWord(L4_Never, 1).raw == 0 && L4_TimeAddWord(time, UINT64_MAX).raw == 0);
	CHECK(L4_TimeAddWordTo(&time, 1)->raw == 6 && L4_TimeSubWordFrom(&time, 2)->raw == 4);
	CHECK(L4_TimeAddTo(&time, time)->raw == 8 && L4_TimeSubFrom(&time, L4_TimePeriod(3))->raw == 5);
}

static void check_items(void)
{
	static char bytes[40];
	L4_StringItem_t item = L4_StringItem(3, bytes), other = L4_StringItem(4, bytes + 8);

	CHECK(item.raw[0] == 0xc00 && item.raw[1] == (L4_Word_t) (uintptr_t) bytes);
	CHECK(L4_IsStringItem(&item) && !L4_CompoundString(&item) && L4_Substrings(&item) == 1);
	CHECK(L4_Substring(&item, 0) == bytes && L4_Substring(&item, 1) == NULL);
	/* j = 2, length 4 */
	CHECK(L4_AddSubstringAddressTo(&other, bytes + 12) == &other && other.raw[0] == 0x1010);
	CHECK(L4_CompoundString(&other) && L4_Substrings(&other) == 2 && L4_Substring(&other, 1) == bytes + 12);
	/* c = 1 */
	CHECK(L4_AddSubstringTo(&item, other) == &item && item.raw[0] == 0xe00 && item.raw[2] == 0x1010);
	CHECK(L4_Substrings(&item) == 3 && L4_Substring(&item, 2) == bytes + 12 && L4_Substring(&item, 3) == NULL);
	for (int i = 3; i < 36; i++)
		L4_AddSubstringAddressTo(&item, bytes + i);
	/* a descriptor has at most 32 pointers, so another one follows: 1, 32 and 3 of them */
	CHECK(L4_Substrings(&item) == 36 && item.raw[2] == (0x1000 | 31 << 4 | 0x200) && item.raw[35] == 0x1020);
	CHECK(L4_Substring(&item, 33) == bytes + 33 && L4_Substring(&item, 35) == bytes + 35);
	while (L4_IsStringItem(&item))
		L4_AddSubstringAddressTo(&item, bytes);
	CHECK(L4_Substrings(&item) == 0 && L4_Substring(&item, 0) == NULL);
	item = L4_StringItem(-1, bytes);
	CHECK(!L4_IsStringItem(&item));
}

static void check_messages(void)
{
	static char bytes[8];
	L4_StringItem_t items[2] = { L4_StringItem(3, bytes), L4_StringItem(4, bytes + 4) }, got[2];
	L4_Word_t words[2] = { 5, 6 }, word;
	L4_Msg_t msg, same;

	L4_AddSubstringAddressTo(&items[1], bytes);
	L4_MsgClear(&msg);
	L4_MsgAppendSimpleStringItem(&msg, items[0]);
	L4_MsgAppendWord(&msg, 5);
	L4_MsgAppendStringItem(&msg, &items[1]);
	L4_MsgAppendWord(&msg, 6);
	L4_Set_MsgLabel(&msg, 3);
	CHECK(msg.raw[0] == (3 << 16 | 5 << 6 | 2) && L4_MsgLabel(&msg) == 3 && L4_MsgMsgTag(&msg).raw == msg.raw[0]);
	CHECK(msg.raw[1] == 5 && msg.raw[2] == 6 && msg.raw[3] == 0xc00 && msg.raw[5] == 0x1010);
	L4_Put(&same, 3, 2, words, 5, items);
	CHECK(memcmp(&msg, &same, 8 * sizeof msg.raw[0]) == 0);
	memset(words, 0, sizeof words);
	L4_Get(&msg, words, got);
	CHECK(words[0] == 5 && words[1] == 6 && got[0].raw[0] == 0xc00 && L4_Substrings(&got[1]) == 2);
	CHECK(L4_MsgWord(&msg, 1) == 6 && L4_MsgWord(&msg, 2) == 0 && L4_MsgWord(&msg, 63) == 0);
	CHECK(L4_MsgGetStringItem(&msg, 0, got) == 2 && L4_MsgGetStringItem(&msg, 2, got) == 3);
	CHECK(L4_MsgGetStringItem(&msg, 5, got) == 0);
	L4_MsgPutWord(&msg, 1, 9);
	L4_MsgGetWord(&msg, 1, &word);
	CHECK(word == 9);
	L4_MsgPutSimpleStringItem(&msg, 0, L4_StringItem(1, bytes));
	L4_MsgPutStringItem(&msg, 2, &items[1]);
	CHECK(msg.raw[3] == 0x400 && msg.raw[5] == 0x1010);
	L4_MsgLoad(&msg);
	memset(&same, 0, sizeof same);
	L4_MsgStore(L4_MsgTag(), &same);
	CHECK(memcmp(&msg, &same, 8 * sizeof msg.raw[0]) == 0);
	L4_Set_MsgMsgTag(&msg, (L4_MsgTag_t) { 1 });
	CHECK(L4_UntypedWords(L4_MsgMsgTag(&msg)) == 1);
}

/* A message that was given too much, or no such item or count as the function takes, has a tag that no message has. */
static void check_spoilt(void)
{
	static char byte;
	L4_StringItem_t none = L4_StringItem(-1, &byte), two = L4_StringItem(1, &byte), got;
	L4_Word_t words[64];
	L4_Msg_t msg;

	L4_AddSubstringAddressTo(&two, &byte);
	L4_MsgClear(&msg);
	for (int i = 0; i < 63; i++)
		L4_MsgAppendWord(&msg, (L4_Word_t) i);
	CHECK(msg.raw[0] == 0x3f && msg.raw[63] == 62);
	L4_MsgAppendWord(&msg, 63);
	CHECK(msg.raw[0] == 0xfff);
	L4_MsgAppendWord(&msg, 64);
	L4_MsgAppendSimpleStringItem(&msg, two);
	CHECK(msg.raw[0] == 0xfff && msg.raw[63] == 62);
	L4_MsgLoad(&msg);
	L4_MsgGet(&msg, words, &got);
	CHECK(L4_MsgTag().raw == 0xfff && L4_MsgGetStringItem(&msg, 0, &got) == 0);
	L4_MsgClear(&msg);
	L4_MsgAppendStringItem(&msg, &none);
	CHECK(msg.raw[0] == 0xfbf);
	/* what spoils a message first stays */
	L4_MsgPutWord(&msg, 63, 0);
	CHECK(msg.raw[0] == 0xfbf);
	L4_MsgClear(&msg);
	L4_MsgAppendSimpleStringItem(&msg, two);
	CHECK(msg.raw[0] == 0xfbf);
	L4_MsgPut(&msg, 1, 64, words, 0, NULL);
	CHECK(msg.raw[0] == 0x10fff);
	L4_MsgPut(&msg, 0, 0, NULL, 2, &two);
	CHECK(msg.raw[0] == 0xfbf);
	L4_MsgPut(&msg, 0, -1, NULL, 0, NULL);
	CHECK(msg.raw[0] == 0xfbf);
	L4_MsgPut(&msg, 0, 0, NULL, -1, NULL);
	CHECK(msg.raw[0] == 0xfbf);
	L4_MsgPut(&msg, 0, 61, words, 3, &two);
	CHECK(msg.raw[0] == 0xfff);
	L4_MsgClear(&msg);
	L4_MsgPutWord(&msg, 63, 0);
	CHECK(msg.raw[0] == 0xfff);
	L4_MsgClear(&msg);
	L4_MsgPutStringItem(&msg, 61, &two);
	CHECK(msg.raw[0] == 0xfff);
}

static void check_buffers(void)
{
	static char bytes[64];
	L4_StringItem_t compound = L4_StringItem(2, bytes + 8);
	L4_MsgBuffer_t buffers;
	L4_Word_t words[33];
	L4_Acceptor_t both = L4_AddAcceptor(L4_UntypedWordsAcceptor, L4_StringItemsAcceptor);

	CHECK(L4_HasStringItems(both) && !L4_HasStringItems(L4_RemoveAcceptor(both, L4_StringItemsAcceptor)));
	CHECK(L4_RemoveAcceptorFrom(&both, L4_StringItemsAcceptor).raw == 0 && both.raw == 0);
	CHECK(L4_AddAcceptorTo(&both, L4_StringItemsAcceptor).raw == 1 && both.raw == 1);
	L4_AddSubstringTo(&compound, L4_StringItem(3, bytes + 16));
	L4_MsgBufferClear(&buffers);
	L4_MsgBufferAppendSimpleRcvString(&buffers, L4_StringItem(3, bytes));
	L4_MsgBufferAppendRcvString(&buffers, &compound);
	/* C of the first item says that the second follows */
	CHECK(buffers.raw[0] == 0xc01 && buffers.raw[2] == 0xa00 && buffers.raw[4] == 0xc00);
	L4_AcceptStrings(both, &buffers);
	L4_StoreBRs(0, 33, words);
	CHECK(L4_Accepted().raw == 1 && words[0] == 1 && words[1] == 0xc01 && words[6] == buffers.raw[5]);
	L4_LoadBR(32, 7);
	L4_StoreBR(32, &words[0]);
	CHECK(words[0] == 7);
	L4_Accept(L4_UntypedWordsAcceptor);
	CHECK(L4_Accepted().raw == 0);
	L4_LoadMRs(62, 2, words);
	L4_StoreMR(62, &words[1]);
	CHECK(words[1] == 7);
	L4_LoadMR(63, 8);
	L4_StoreMRs(63, 1, words);
	CHECK(words[0] == 8);
}

/* Whether the last call was refused since this argument is null. */
static bool is_null(const char *argument)
{
	char told[128];

	(void) snprintf(told, sizeof told, "C12: a string or a buffer lies in memory that is not there (%s is NULL)", argument);
	return errno == EFAULT && strcmp(l4_error(), told) == 0;
}

/* A null pointer in place of a name, of a path, of where a result goes or of a function is refused, and nothing is sent. */
static void check_nulls(void)
{
	char name[L4_NAME_BYTES + 1];
	L4_ThreadId_t thread;

	errno = 0;
	CHECK(l4_register(NULL) == -1 && errno == EINVAL && strncmp(l4_error(), "N2: ", 4) == 0);
	errno = 0;
	CHECK(l4_register_wait(NULL, L4_Never) == -1 && errno == EINVAL);
	errno = 0;
	CHECK(L4_IsNilThread(l4_lookup(NULL)) && errno == EINVAL);
	errno = 0;
	CHECK(L4_IsNilThread(l4_lookup_wait(NULL, L4_Never)) && errno == EINVAL);
	errno = 0;
	CHECK(l4_list(NULL, name, &thread) == -1 && errno == EINVAL);
	errno = 0;
	CHECK(l4_list("", NULL, &thread) == -1 && is_null("l4_list: name"));
	errno = 0;
	CHECK(l4_list("", name, NULL) == -1 && is_null("l4_list: thread"));
	errno = 0;
	CHECK(l4_connect(NULL, 1, 1) == -1 && is_null("l4_connect: dir"));
	errno = 0;
	CHECK(l4_connect_wait(NULL, 1, 1, 1, L4_Never) == -1 && is_null("l4_connect: dir"));
	errno = 0;
	CHECK(l4_serve(NULL, NULL, NULL) == -1 && is_null("l4_serve: answer"));
}

int main(void)
{
	check_ids();
	check_states();
	check_tags();
	check_periods();
	check_items();
	check_messages();
	check_spoilt();
	check_buffers();
	check_nulls();
	CHECK(L4_IpcFailed(L4_Send(L4_GlobalId(1, 1))) && L4_ErrorCode() == 0x43010);
	CHECK(strcmp(l4_error(), "C1: the thread is not connected") == 0);
	printf("%d\n", checks);
	return 0;
}
