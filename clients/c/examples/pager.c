/* A server as a pager is one: l4_serve answers a fault and waits for the next, by ReplyWait. No memory is mapped here: the
 * answer is the address of the page and the number of the frame that backs it.
 *
 *     pager DIR serve                     thread 4
 *     pager DIR touch PAGER ADDRESS..     thread 5: tells a fault at each address, and prints the frame; PAGER is pager or an id */
#include "common.h"

#include <string.h>

enum { PAGE_BITS = 12, PAGES = 1024, READ = 4, BAD_FAULT = 1 };

/* The label of a page fault in the manual's protocol: -2 in the upper bits, then the access, then four zero bits. */
static const L4_Word_t FAULT_LABEL = 0xffffffffffe0;

struct pages {
	L4_Word_t page[PAGES];
	size_t count;
};

/* The frame of the page at this address: the next free one where it has none yet, PAGES where there is none left. */
static size_t frame_of(struct pages *pages, L4_Word_t address)
{
	size_t frame = 0;

	while (frame < pages->count && pages->page[frame] != address >> PAGE_BITS)
		frame++;
	if (frame == pages->count && frame < PAGES)
		pages->page[pages->count++] = address >> PAGE_BITS;
	return frame;
}

/* Loads the answer to a fault: the page and its frame, or label 1 alone where the request is no fault or memory is used up. */
static L4_Bool_t answer(L4_ThreadId_t from, L4_MsgTag_t tag, void *data)
{
	struct pages *pages = data;
	L4_Word_t address;
	size_t frame = PAGES;
	L4_Msg_t msg;

	(void) from;
	L4_StoreMR(1, &address);
	if (L4_UntypedWords(tag) == 2 && (L4_Label(tag) & ~(L4_Word_t) 0x7) == FAULT_LABEL)
		frame = frame_of(pages, address);
	L4_MsgClear(&msg);
	if (frame == PAGES) {
		L4_Set_MsgLabel(&msg, BAD_FAULT);
	} else {
		L4_MsgAppendWord(&msg, address >> PAGE_BITS << PAGE_BITS);
		L4_MsgAppendWord(&msg, frame);
	}
	L4_MsgLoad(&msg);
	return true;
}

static void touch(L4_ThreadId_t pager, L4_Word_t address)
{
	L4_Msg_t msg;
	L4_MsgTag_t tag;

	L4_MsgClear(&msg);
	L4_Set_MsgLabel(&msg, FAULT_LABEL | READ);
	L4_MsgAppendWord(&msg, address);
	/* the instruction that faulted: there is none here */
	L4_MsgAppendWord(&msg, 0);
	L4_MsgLoad(&msg);
	tag = L4_Call(pager);
	if (L4_IpcFailed(tag))
		fail("touch");
	L4_MsgStore(tag, &msg);
	if (L4_Label(tag) != 0)
		printf("0x%llx: no frame\n", (unsigned long long) address);
	else
		printf("0x%llx: frame %llu\n", (unsigned long long) address, (unsigned long long) L4_MsgWord(&msg, 1));
}

int main(int argc, char **argv)
{
	if (argc == 3 && strcmp(argv[2], "serve") == 0) {
		static struct pages pages;

		connect_as(argv[1], 4);
		serve("pager", answer, &pages);
	} else if (argc >= 5 && strcmp(argv[2], "touch") == 0) {
		L4_ThreadId_t pager;

		connect_as(argv[1], 5);
		pager = thread_of(argv[3]);
		for (int i = 4; i < argc; i++)
			touch(pager, strtoull(argv[i], NULL, 0));
		l4_disconnect();
	} else {
		fprintf(stderr, "usage: pager DIR serve | pager DIR touch PAGER ADDRESS..\n");
		return 2;
	}
	return 0;
}
