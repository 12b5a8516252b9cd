/* What the library adds to a round trip: calls of a word by L4_Call, and the same by frames written out by hand, in turn and of the
 * same server.
 *
 *     roundtrip DIR [BLOCKS]
 *
 * The two ways take turns call by call. For each block of calls the quotient of the medians is taken. Printed are the medians of
 * all calls, and the median and quartiles of the quotients. */
#define _GNU_SOURCE

#include <l4.h>

#include <errno.h>
#include <signal.h>
#include <stdio.h>
#include <stdlib.h>
#include <string.h>
#include <sys/prctl.h>
#include <sys/socket.h>
#include <sys/un.h>
#include <sys/wait.h>
#include <time.h>
#include <unistd.h>

enum { BLOCK = 200, BLOCKS = 60, MOST_BLOCKS = 200, WARMING = 3, FRAME_BYTES = 58, ANSWER_BYTES = 46 };

/* In microseconds, how long a number may stay that of a thread of the run before, and a while after which it is asked for again. */
enum { PATIENCE = 5000000, PAUSE = 20000 };

static void end(const char *what, const char *why)
{
	fprintf(stderr, "roundtrip: %s: %s\n", what, why);
	exit(1);
}

static void fail(const char *what)
{
	end(what, l4_error());
}

/* Connects, also right behind a run whose thread of this number is just ending. */
static void connect_as(const char *dir, unsigned number, const char *what)
{
	if (l4_connect_wait(dir, 1, number, 1, L4_TimePeriod(PATIENCE)) < 0)
		fail(what);
}

/* The server: tells its id, and adds 1 to each word, until its parent ends. */
static void serve(const char *dir, int teller)
{
	L4_ThreadId_t from, myself;
	L4_MsgTag_t tag;
	L4_Word_t word;

	prctl(PR_SET_PDEATHSIG, SIGKILL);
	connect_as(dir, 1, "server");
	myself = L4_Myself();
	if (write(teller, &myself, sizeof myself) != sizeof myself)
		end("server", strerror(errno));
	for (tag = L4_Wait(&from); L4_IpcSucceeded(tag); tag = L4_ReplyWait(from, &from)) {
		L4_StoreMR(1, &word);
		L4_Set_MsgTag((L4_MsgTag_t) { 1 });
		L4_LoadMR(1, word + 1);
	}
	fail("server");
}

static L4_Word_t call_by_library(L4_ThreadId_t to, L4_Word_t word)
{
	L4_Msg_t msg;
	L4_MsgTag_t tag;

	L4_MsgClear(&msg);
	L4_MsgAppendWord(&msg, word);
	L4_MsgLoad(&msg);
	tag = L4_Call(to);
	if (L4_IpcFailed(tag))
		fail("client");
	L4_MsgStore(tag, &msg);
	return L4_MsgWord(&msg, 0);
}

static int line;

static unsigned char *put(unsigned char *at, uint64_t value)
{
	value = __builtin_bswap64(value);
	memcpy(at, &value, sizeof value);
	return at + sizeof value;
}

static uint64_t get(const unsigned char *at)
{
	uint64_t value;

	memcpy(&value, at, sizeof value);
	return __builtin_bswap64(value);
}

/* Connects and says HELLO. False where what came is no WELCOME. */
static bool says_hello(const struct sockaddr_un *address, unsigned char number)
{
	unsigned char hello[] = { 0, 0, 0, 3, 1, 0, number }, welcome[13];

	line = socket(AF_UNIX, SOCK_STREAM, 0);
	if (line < 0 || connect(line, (const struct sockaddr *) address, sizeof *address) < 0 ||
	    send(line, hello, sizeof hello, MSG_NOSIGNAL) != sizeof hello)
		end("HELLO by hand", strerror(errno));
	/* the length and the kind, and then the id */
	return recv(line, welcome, 5, MSG_WAITALL) == 5 && welcome[4] == 0x81 && recv(line, welcome + 5, 8, MSG_WAITALL) == 8;
}

static void open_by_hand(const char *dir, unsigned char number)
{
	struct sockaddr_un address = { .sun_family = AF_UNIX };

	snprintf(address.sun_path, sizeof address.sun_path, "%s/space1", dir);
	for (int left = PATIENCE / PAUSE; !says_hello(&address, number); left--) {
		if (left == 0)
			end("HELLO by hand", "no WELCOME came: is a thread of that number live?");
		close(line);
		usleep(PAUSE);
	}
}

static L4_Word_t call_by_hand(L4_ThreadId_t to, L4_Word_t word)
{
	unsigned char frame[FRAME_BYTES] = { 0, 0, 0, FRAME_BYTES - 4, 2 }, answer[8192], *at = frame + 5;
	ssize_t count;

	at = put(put(at, to.raw), to.raw);
	memset(at, 0, 4);
	at = put(put(put(at + 4, 0), 1), 0);
	*at++ = 0;
	put(at, word);
	if (send(line, frame, sizeof frame, MSG_NOSIGNAL) != sizeof frame)
		end("send by hand", strerror(errno));
	for (count = 0; count < ANSWER_BYTES;) {
		ssize_t more = recv(line, answer + count, sizeof answer - (size_t) count, 0);
		if (more <= 0)
			end("recv by hand", more == 0 ? "the connection ended" : strerror(errno));
		count += more;
	}
	if (count != ANSWER_BYTES || answer[4] != 0x82 || get(answer + 5) != 1)
		end("answer by hand", "the call failed");
	return get(answer + 37);
}

static double microseconds(void)
{
	struct timespec now;

	clock_gettime(CLOCK_MONOTONIC, &now);
	return (double) now.tv_sec * 1e6 + (double) now.tv_nsec / 1e3;
}

static int compare(const void *l, const void *r)
{
	double a = *(const double *) l, b = *(const double *) r;

	return (a > b) - (a < b);
}

/* The value that stands at this part of the sorted values. */
static double at_part(double *values, size_t count, double part)
{
	qsort(values, count, sizeof values[0], compare);
	return values[(size_t) ((double) (count - 1) * part)];
}

/* How long one call took. */
static double measure(L4_Word_t (*call)(L4_ThreadId_t, L4_Word_t), L4_ThreadId_t to)
{
	static L4_Word_t word;
	double began = microseconds(), took;
	L4_Word_t answer = call(to, ++word);

	took = microseconds() - began;
	if (answer != word + 1)
		end("client", "another word came back");
	return took;
}

/* Calls both ways in turn, each as often before the other as behind it, and keeps how long each took. */
static void measure_block(L4_ThreadId_t to, double *by_library, double *by_hand)
{
	for (int i = 0; i < BLOCK; i++) {
		if (i % 2 == 0)
			by_library[i] = measure(call_by_library, to);
		by_hand[i] = measure(call_by_hand, to);
		if (i % 2 != 0)
			by_library[i] = measure(call_by_library, to);
	}
}

int main(int argc, char **argv)
{
	static double library[MOST_BLOCKS * BLOCK], hand[MOST_BLOCKS * BLOCK], quotients[MOST_BLOCKS];
	int blocks = argc == 3 ? atoi(argv[2]) : BLOCKS;
	L4_ThreadId_t server;
	int teller[2];
	pid_t child;

	if (argc < 2 || argc > 3 || blocks < 1 || blocks > MOST_BLOCKS) {
		fprintf(stderr, "usage: roundtrip DIR [BLOCKS]\n");
		return 2;
	}
	if (pipe(teller) < 0 || (child = fork()) < 0)
		end("fork", strerror(errno));
	if (child == 0)
		serve(argv[1], teller[1]);
	close(teller[1]);
	/* whatever version the thread of the server has; a server that ended has said why */
	if (read(teller[0], &server, sizeof server) != sizeof server)
		return 1;
	connect_as(argv[1], 2, "client");
	open_by_hand(argv[1], 3);
	/* the first blocks warm up, and are written over */
	for (int block = 0; block < WARMING; block++)
		measure_block(server, library, hand);
	for (int block = 0; block < blocks; block++) {
		double *ours = library + block * BLOCK, *theirs = hand + block * BLOCK;

		measure_block(server, ours, theirs);
		quotients[block] = at_part(ours, BLOCK, 0.5) / at_part(theirs, BLOCK, 0.5);
	}
	printf("library %.2f us, by hand %.2f us, quotient %.3f (%.3f to %.3f)\n", at_part(library, (size_t) blocks * BLOCK, 0.5),
	       at_part(hand, (size_t) blocks * BLOCK, 0.5), at_part(quotients, (size_t) blocks, 0.5),
	       at_part(quotients, (size_t) blocks, 0.25), at_part(quotients, (size_t) blocks, 0.75));
	kill(child, SIGKILL);
	waitpid(child, NULL, 0);
	return 0;
}
