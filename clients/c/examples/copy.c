/* Strings are memory: a title and a text go from one process to the other. The text is gathered from several places, and
 * scattered to two.
 *
 *     copy DIR take                           thread 6: prints the first two strings that come
 *     copy DIR give TAKER TITLE WORD..        thread 7: sends; TAKER is taker or an id */
#include "common.h"

#include <string.h>

enum { TITLE_BYTES = 64, FRONT_BYTES = 8, REST_BYTES = 4096 };

/* Where the strings go. */
struct memory {
	char title[TITLE_BYTES], front[FRONT_BYTES], rest[REST_BYTES];
};

static void print_bytes(const char *what, const char *bytes, size_t count)
{
	printf("%s: %.*s\n", what, (int) count, bytes);
}

/* Prints two strings, and ends the thread then: l4_serve returns. Of what else comes it says so, and waits for the next. */
static L4_Bool_t print_strings(L4_ThreadId_t from, L4_MsgTag_t tag, void *data)
{
	const struct memory *memory = data;
	L4_StringItem_t title, text;
	L4_Word_t next;
	L4_Msg_t msg;
	size_t bytes;

	(void) from;
	L4_MsgStore(tag, &msg);
	next = L4_MsgGetStringItem(&msg, 0, &title);
	if (next == 0 || L4_MsgGetStringItem(&msg, next, &text) == 0) {
		fprintf(stderr, "take: not two strings\n");
		return false;
	}
	/* a string that was received is a simple item of its whole length */
	print_bytes("title", memory->title, title.raw[0] >> 10);
	bytes = text.raw[0] >> 10;
	print_bytes("front", memory->front, bytes < FRONT_BYTES ? bytes : FRONT_BYTES);
	print_bytes("rest", memory->rest, bytes < FRONT_BYTES ? 0 : bytes - FRONT_BYTES);
	l4_disconnect();
	return false;
}

static void take(void)
{
	static struct memory memory;
	L4_StringItem_t text = L4_StringItem(FRONT_BYTES, memory.front);
	L4_MsgBuffer_t buffers;

	/* the first string goes to the title, the second fills front and goes on in rest */
	L4_AddSubstringTo(&text, L4_StringItem(REST_BYTES, memory.rest));
	L4_MsgBufferClear(&buffers);
	L4_MsgBufferAppendSimpleRcvString(&buffers, L4_StringItem(TITLE_BYTES, memory.title));
	L4_MsgBufferAppendRcvString(&buffers, &text);
	L4_AcceptStrings(L4_StringItemsAcceptor, &buffers);
	serve("taker", print_strings, &memory);
}

static void give(L4_ThreadId_t taker, char *title, char **words, int count)
{
	L4_StringItem_t text = L4_StringItem((int) strlen(words[0]), words[0]);
	L4_Msg_t msg;

	for (int i = 1; i < count; i++) {
		L4_AddSubstringTo(&text, L4_StringItem(1, " "));
		L4_AddSubstringTo(&text, L4_StringItem((int) strlen(words[i]), words[i]));
	}
	L4_MsgClear(&msg);
	L4_MsgAppendSimpleStringItem(&msg, L4_StringItem((int) strlen(title), title));
	L4_MsgAppendStringItem(&msg, &text);
	L4_MsgLoad(&msg);
	if (L4_IpcFailed(L4_Send(taker)))
		fail("give");
	printf("sent in %d pieces of memory\n", 1 + (int) L4_Substrings(&text));
}

int main(int argc, char **argv)
{
	if (argc == 3 && strcmp(argv[2], "take") == 0) {
		connect_as(argv[1], 6);
		take();
	} else if (argc >= 6 && strcmp(argv[2], "give") == 0) {
		connect_as(argv[1], 7);
		give(thread_of(argv[3]), argv[4], argv + 5, argc - 5);
	} else {
		fprintf(stderr, "usage: copy DIR take | copy DIR give TAKER TITLE WORD..\n");
		return 2;
	}
	l4_disconnect();
	return 0;
}
