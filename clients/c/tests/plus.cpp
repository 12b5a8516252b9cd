// A C++ program with all that the headers have: the names are those of C, and it links.
#include <l4.h>
#include <l4/kip.h>
#include <l4/misc.h>
#include <l4/space.h>

#include <cstdio>
#include <cstdlib>

namespace {

void want(bool holds, const char *what)
{
	if (holds)
		return;
	std::fprintf(stderr, "plus: not so: %s: %s\n", what, l4_error());
	std::exit(1);
}

// a value that is there before main
const L4_ThreadId_t everybody = L4_anythread;

L4_Bool_t answer(L4_ThreadId_t, L4_MsgTag_t, void *count)
{
	++*static_cast<int *>(count);
	return false;
}

}

int main()
{
	int count = 0;
	char text[] = "text";
	L4_MsgTag_t tag = L4_MsgTagAddLabel(L4_Niltag, 3);
	L4_StringItem_t item = L4_StringItem(4, text);
	L4_MsgBuffer_t buffers;
	L4_Msg_t msg;

	want(everybody.raw == ~L4_Word_t { 0 } && L4_IsNilThread(L4_nilthread), "ids");
	want(L4_IsThreadEqual(L4_GlobalId(1, 2), L4_ThreadId_t { 0x100000002 }), "an id of two");
	want(L4_Label(tag) == 3 && L4_MsgTagAddLabelTo(&tag, 4).raw == 0x40000, "labels");
	want(L4_Timeouts(L4_ZeroTime, L4_Never) == 0x4000000, "timeouts");
	want(L4_AddAcceptor(L4_UntypedWordsAcceptor, L4_StringItemsAcceptor).raw == 1, "acceptors");
	L4_MsgClear(&msg);
	L4_MsgAppendWord(&msg, 7);
	L4_MsgAppendStringItem(&msg, &item);
	want(L4_MsgWord(&msg, 0) == 7 && L4_TypedWords(L4_MsgMsgTag(&msg)) == 2, "a message");
	L4_MsgBufferClear(&buffers);
	L4_MsgBufferAppendSimpleRcvString(&buffers, item);
	L4_AcceptStrings(L4_StringItemsAcceptor, &buffers);
	want(l4_connect("/dev/null", 1, 1) == -1 && L4_IpcFailed(L4_Call(L4_GlobalId(1, 1))), "no server");
	want(l4_serve(answer, nullptr, &count) == -1 && count == 0, "no requests");
	want(L4_IsNilThread(l4_lookup("name")), "no name server");
	return 0;
}
