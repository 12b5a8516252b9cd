/* Plays answers to the library, of a server that checks/live/c_client/played.py scripts: right ones, wrong ones, and pieces of them.
 *
 *     play DIR < CASES
 *
 * A case is a line `CALL ANSWER`: the call that is made, and the bytes that answer it, in hexadecimal, `-` for none; where
 * there is a `/` in them the server pauses. Then it ends the connection. A call with a 2 behind its name, as `send2`, is made in
 * version 2 of the wire. For each case a line says what the library made of it. Buffers lie in an area at a fixed address, so that a script can name them; what is outside of them is watched. */
#define _GNU_SOURCE

#include <l4.h>

#include <errno.h>
#include <pthread.h>
#include <stdio.h>
#include <stdlib.h>
#include <string.h>
#include <sys/mman.h>
#include <sys/socket.h>
#include <sys/un.h>
#include <unistd.h>

enum { AREA = 0x10000000, AREA_BYTES = 1 << 18, FRONT_BYTES = 1 << 12, LINE_BYTES = 1 << 20, REQUEST_BYTES = 1 << 12, FILLING = 0xaa };

static unsigned char *area;
static int listener;

/* What the server of one case sends and what it heard. */
struct script {
	bool greets;
	const char *answer;
	size_t heard;
	unsigned char request[REQUEST_BYTES];
};

static void die(const char *what)
{
	perror(what);
	exit(3);
}

static unsigned nibble(char digit)
{
	return (unsigned) (digit <= '9' ? digit - '0' : digit - 'a' + 10);
}

/* Writes a script's bytes; `/` is a pause. A client that has ended already is none of its concern. */
static void play_bytes(int line, const char *text)
{
	static unsigned char bytes[LINE_BYTES];

	while (*text != 0 && *text != '-') {
		size_t count = 0;

		for (; *text != 0 && *text != '/'; text += 2)
			bytes[count++] = (unsigned char) (nibble(text[0]) << 4 | nibble(text[1]));
		for (size_t sent = 0; sent < count;) {
			ssize_t more = send(line, bytes + sent, count - sent, MSG_NOSIGNAL);
			if (more < 0)
				return;
			sent += (size_t) more;
		}
		if (*text == '/') {
			usleep(300);
			text++;
		}
	}
}

/* Reads one frame; its bytes are kept. */
static void hear(int line, struct script *script)
{
	size_t whole = 4;

	script->heard = 0;
	while (script->heard < whole) {
		ssize_t more = recv(line, script->request + script->heard, whole - script->heard, 0);
		if (more <= 0)
			return;
		script->heard += (size_t) more;
		if (script->heard == 4)
			whole = 4 + ((size_t) script->request[2] << 8 | script->request[3]);
	}
}

static void *serve(void *argument)
{
	static const unsigned char welcome[] = { 0, 0, 0, 9, 0x81, 0, 0, 0, 2, 0, 0, 0, 1 };
	struct script *script = argument;
	int line = accept(listener, NULL, NULL);

	if (line < 0)
		die("accept");
	hear(line, script);
	if (script->greets) {
		send(line, welcome, sizeof welcome, MSG_NOSIGNAL);
		hear(line, script);
	}
	play_bytes(line, script->answer);
	shutdown(line, SHUT_WR);
	/* what the client still says is read, so that the answer is not lost by a reset */
	while (recv(line, script->request + REQUEST_BYTES - 64, 64, 0) > 0)
		;
	close(line);
	return NULL;
}

static void *at(size_t offset)
{
	return area + offset;
}

/* The buffers of a case: 3@0x10, then 2@0x100 and 3@0x200 as one; or two of the big ones as one. */
static void accept_strings(bool is_big)
{
	L4_StringItem_t second = L4_StringItem(2, at(0x100));
	L4_MsgBuffer_t buffers;

	L4_MsgBufferClear(&buffers);
	if (is_big) {
		second = L4_StringItem(70000, at(0x1000));
		L4_AddSubstringAddressTo(&second, at(0x18000));
	} else {
		L4_MsgBufferAppendSimpleRcvString(&buffers, L4_StringItem(3, at(0x10)));
		L4_AddSubstringTo(&second, L4_StringItem(3, at(0x200)));
	}
	L4_MsgBufferAppendRcvString(&buffers, &second);
	L4_AcceptStrings(L4_StringItemsAcceptor, &buffers);
}

static void load_strings(void)
{
	static char one[] = "abc", two[] = "hel", three[] = "lo", four[] = "xyz";
	L4_StringItem_t compound = L4_StringItem(3, two), equal = L4_StringItem(1, four);
	L4_Msg_t msg;

	L4_AddSubstringTo(&compound, L4_StringItem(2, three));
	L4_AddSubstringAddressTo(&equal, four + 1);
	L4_AddSubstringAddressTo(&equal, four + 2);
	L4_MsgClear(&msg);
	L4_Set_MsgLabel(&msg, 3);
	L4_MsgAppendSimpleStringItem(&msg, L4_StringItem(3, one));
	L4_MsgAppendStringItem(&msg, &compound);
	L4_MsgAppendStringItem(&msg, &equal);
	L4_MsgAppendWord(&msg, 9);
	L4_MsgLoad(&msg);
}

static void load_word(void)
{
	L4_Set_MsgTag((L4_MsgTag_t) { 1 });
	L4_LoadMR(1, 7);
}

/* Makes the call of a case. */
static void make(const char *call, L4_ThreadId_t *from)
{
	L4_ThreadId_t one = L4_GlobalId(1, 1);
	L4_MsgTag_t tag;

	*from = L4_nilthread;
	L4_Accept(L4_UntypedWordsAcceptor);
	if (strcmp(call, "send") == 0) {
		load_word();
		L4_Send(one);
	} else if (strcmp(call, "strings") == 0) {
		load_strings();
		L4_Send(one);
	} else if (strcmp(call, "propagate") == 0) {
		tag = (L4_MsgTag_t) { 1 };
		L4_Set_Propagation(&tag);
		load_word();
		L4_Set_MsgTag(tag);
		L4_Set_VirtualSender(L4_GlobalId(3, 65));
		L4_Ipc(one, one, L4_Timeouts(L4_TimePeriod(5), L4_TimePeriod(200000)), from);
	} else if (strcmp(call, "wait") == 0) {
		L4_Wait(from);
	} else if (strcmp(call, "take") == 0) {
		accept_strings(false);
		L4_Wait(from);
	} else if (strcmp(call, "big") == 0) {
		accept_strings(true);
		L4_Wait(from);
	} else if (strcmp(call, "exreg") == 0) {
		L4_Word_t control;
		*from = L4_ExchangeRegisters(L4_GlobalId(2, 1), 0x4, 0, 0, 0, 0, L4_nilthread, &control, NULL, NULL, NULL,
					     NULL, NULL);
		L4_LoadMR(0, control);
	} else if (strcmp(call, "connect") != 0) {
		fprintf(stderr, "no such call: %s\n", call);
		exit(3);
	}
}

/* Adler-32. */
static unsigned long sum_of(const unsigned char *bytes, size_t count)
{
	unsigned long a = 1, b = 0;

	for (size_t i = 0; i < count; i++) {
		a = (a + bytes[i]) % 65521;
		b = (b + a) % 65521;
	}
	return b << 16 | a;
}

/* Whether the area from here on is as it was. */
static bool is_untouched(size_t from)
{
	for (size_t i = from; i < AREA_BYTES; i++)
		if (area[i] != FILLING)
			return false;
	return true;
}

/* The sum of the area, and then that of what is outside of the buffers of the call. Of a call without big buffers the front
 * is summed; what is behind it has to be untouched. */
static void print_area(const char *call)
{
	static const struct { size_t at, count; } small[] = { { 0x10, 3 }, { 0x100, 2 }, { 0x200, 3 } },
						   big[] = { { 0x1000, 70000 }, { 0x18000, 70000 } };
	bool is_big = strcmp(call, "big") == 0;
	size_t count = is_big ? AREA_BYTES : FRONT_BYTES;

	printf(" %lx", sum_of(area, count));
	if (is_big)
		for (int i = 0; i < 2; i++)
			memset(at(big[i].at), FILLING, big[i].count);
	else if (strcmp(call, "take") == 0)
		for (int i = 0; i < 3; i++)
			memset(at(small[i].at), FILLING, small[i].count);
	printf(" %lx", is_untouched(count) ? sum_of(area, count) : 0);
}

static void print_words(L4_MsgTag_t tag)
{
	L4_Word_t count = L4_UntypedWords(tag) + L4_TypedWords(tag), word;

	printf(count == 0 ? " -" : " ");
	for (L4_Word_t i = 0; i < count; i++) {
		L4_StoreMR((int) (1 + i), &word);
		printf("%s%llx", i == 0 ? "" : ",", (unsigned long long) word);
	}
}

/* What version 2 tells of the call: its number, or 0 of an ExchangeRegisters, and the moment; `-` where it tells nothing. */
static void print_told(const char *call)
{
	L4_Word_t number = 0;
	L4_Word64_t moment;
	bool is_told = strcmp(call, "exreg") == 0 ? l4_last_exchange(&moment) : l4_last_call(&number, &moment);

	if (is_told)
		printf(" %llx,%llx", (unsigned long long) number, (unsigned long long) moment);
	else
		printf(number == 0 && moment == 0 ? " -" : " a number of nothing");
}

static void print_case(const char *call, const struct script *script, int connected, int cause, L4_ThreadId_t from)
{
	L4_MsgTag_t tag = L4_MsgTag();

	printf("%d ", connected);
	for (size_t i = 0; i < script->heard; i++)
		printf("%02x", script->request[i]);
	printf(" %llx %llx %llx %llx", (unsigned long long) tag.raw, (unsigned long long) L4_ErrorCode(),
	       (unsigned long long) from.raw, (unsigned long long) L4_ActualSender().raw);
	print_words(tag);
	print_told(call);
	print_area(call);
	printf(" %llx %d", (unsigned long long) L4_Myself().raw, cause);
	/* what the next call says: the connection has ended, or the thread is none any more */
	printf(" %s;", l4_error());
	L4_Wait(NULL);
	printf(" %llx %s\n", (unsigned long long) L4_ErrorCode(), l4_error());
}

static void play(const char *dir, char *line)
{
	char *answer = strchr(line, ' ');
	bool is_of_version_2 = answer[-1] == '2';
	struct script script = { .greets = true };
	L4_ThreadId_t from = L4_nilthread;
	pthread_t server;
	int connected;

	*answer++ = 0;
	if (is_of_version_2)
		line[strlen(line) - 1] = 0;
	script.greets = strcmp(line, "connect") != 0;
	script.answer = answer;
	memset(area, FILLING, AREA_BYTES);
	if (pthread_create(&server, NULL, serve, &script) != 0)
		die("pthread_create");
	L4_Set_MsgTag(L4_Niltag);
	errno = 0;
	connected = is_of_version_2 ? l4_connect_version(dir, 1, 2, 2) : l4_connect(dir, 1, 2);
	if (connected == 0)
		make(line, &from);
	print_case(line, &script, connected, errno, from);
	l4_disconnect();
	pthread_join(server, NULL);
}

int main(int argc, char **argv)
{
	static char line[LINE_BYTES];
	struct sockaddr_un address = { .sun_family = AF_UNIX };

	if (argc != 2)
		return 2;
	area = mmap((void *) (uintptr_t) AREA, AREA_BYTES, PROT_READ | PROT_WRITE,
		    MAP_PRIVATE | MAP_ANONYMOUS | MAP_FIXED_NOREPLACE, -1, 0);
	if (area != (void *) (uintptr_t) AREA)
		die("mmap");
	snprintf(address.sun_path, sizeof address.sun_path, "%s/space1", argv[1]);
	listener = socket(AF_UNIX, SOCK_STREAM, 0);
	if (listener < 0 || bind(listener, (struct sockaddr *) &address, sizeof address) < 0 || listen(listener, 8) < 0)
		die("listen");
	while (fgets(line, sizeof line, stdin) != NULL) {
		line[strcspn(line, "\n")] = 0;
		play(argv[1], line);
	}
	return 0;
}
