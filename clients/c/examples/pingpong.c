/* The ping-pong of L4 kernels: how many microseconds a message takes, for messages of 0, 4, .. 60 words.
 *
 *     pingpong DIR pong              thread 2: answers each message with its words
 *     pingpong DIR ping [PONG]       thread 3: measures, with the thread of this name or id (default: pingpong) */
#define _POSIX_C_SOURCE 200809L

#include "common.h"

#include <string.h>
#include <time.h>

enum { ROUNDS = 1000, MOST_WORDS = 60 };

/* The words stand in the message registers, and go back from there; its strings, if it had any, do not. */
static L4_Bool_t pong(L4_ThreadId_t from, L4_MsgTag_t tag, void *unused)
{
	(void) from, (void) unused;
	L4_Set_MsgTag(L4_MsgTagAddLabel((L4_MsgTag_t) { L4_UntypedWords(tag) }, L4_Label(tag)));
	return true;
}

static double microseconds(void)
{
	struct timespec now;

	clock_gettime(CLOCK_MONOTONIC, &now);
	return (double) now.tv_sec * 1e6 + (double) now.tv_nsec / 1e3;
}

static void send_words(L4_ThreadId_t to, int words)
{
	L4_Msg_t msg;
	L4_MsgTag_t tag;

	L4_MsgClear(&msg);
	for (int i = 0; i < words; i++)
		L4_MsgAppendWord(&msg, (L4_Word_t) i);
	L4_MsgLoad(&msg);
	tag = L4_Call(to);
	if (L4_IpcFailed(tag))
		fail("ping");
	if (L4_UntypedWords(tag) != (L4_Word_t) words) {
		fprintf(stderr, "ping: %d words came back as %d\n", words, (int) L4_UntypedWords(tag));
		exit(1);
	}
}

static void ping(L4_ThreadId_t to)
{
	for (int words = 0; words <= MOST_WORDS; words += 4) {
		double began = microseconds();

		for (int i = 0; i < ROUNDS; i++)
			send_words(to, words);
		/* a round is two messages */
		printf("IPC (%2d MRs): %.2f microseconds\n", words, (microseconds() - began) / (2.0 * ROUNDS));
	}
}

int main(int argc, char **argv)
{
	if (argc == 3 && strcmp(argv[2], "pong") == 0) {
		connect_as(argv[1], 2);
		serve("pingpong", pong, NULL);
	} else if ((argc == 3 || argc == 4) && strcmp(argv[2], "ping") == 0) {
		connect_as(argv[1], 3);
		ping(thread_of(argc == 4 ? argv[3] : "pingpong"));
	} else {
		fprintf(stderr, "usage: pingpong DIR pong | pingpong DIR ping [PONG]\n");
		return 2;
	}
	l4_disconnect();
	return 0;
}
