/* Makes the calls that checks/live/c_client/saying.py says, one a line, and prints what each of them brought. Words are hexadecimal.
 *
 *     connect DIR SPACE NUMBER VERSION
 *     disconnect
 *     ipc TO FROM TIMEOUTS LABEL VIRTUAL WORDS STRINGS BUFFERS
 *     exreg DEST CONTROL
 *     mrs I WORDS, brs I WORDS          loads registers; I is decimal
 *     send TO, wait                     sends, or accepts, what the registers say
 *     register NAME, register_wait MICROSECONDS NAME, lookup NAME, list NAME, name_server ID
 *     serve                             answers by the label what cannot be sent (1, 2, 3), and ends by label 9
 *     serve_telling FILE                the same, and l4_serve tells its trouble itself: standard error goes to the file
 *     begin, readable, end              a wait in two parts, and whether its outcome has begun to come
 *     connect_wait MICROSECONDS DIR SPACE NUMBER VERSION, lookup_wait MICROSECONDS NAME, call_wait MICROSECONDS TO
 *     item SIZE, null, nowhere          sends a string of this size, at no address, at one that is not there;
 *                                       buffer SIZE, null_buffer and nowhere_buffer receive one
 *     buffer_in PAGES                   receives one into pages: `w` can be written, `r` read alone, `x` are not there
 *     compound, compound_buffer         uses a string of two substrings where a simple one is wanted
 *     compound_put, put U T             puts such a string, or one item that has t = 3, into a message, and sends it
 *
 * VIRTUAL is `-` without propagation. Lists are `-` or separated by commas. A string is its substrings, each `x` and bytes,
 * joined by `+`; a buffer is the decimal lengths of its substrings joined by `+`, and BUFFERS is `s` for strings accepted
 * without a buffer. */
#define _DEFAULT_SOURCE

#include <l4.h>

#include <errno.h>
#include <poll.h>
#include <stdio.h>
#include <stdlib.h>
#include <string.h>
#include <sys/mman.h>
#include <unistd.h>

enum { LINE_BYTES = 1 << 22, MEMORY_BYTES = 1 << 22, MOST = 64 };

/* Memory of the strings and of the buffers of one call, each piece with a gap behind it that has to stay as it is. */
static unsigned char memory[MEMORY_BYTES];
static size_t used;
enum { GAP = 16, FILLING = 0xaa };

/* The buffers of the call: each is some of the pieces. */
static struct {
	unsigned char *at;
	size_t count;
} pieces[MOST];
static struct {
	size_t begin, end;
} buffer[MOST];
static size_t piece_count, buffers;

static void die(const char *what)
{
	fprintf(stderr, "say: %s\n", what);
	exit(3);
}

static unsigned char *room(size_t count)
{
	unsigned char *at = memory + used;

	if (count > MEMORY_BYTES - GAP - used)
		die("no room");
	used += count + GAP;
	memset(at, FILLING, count + GAP);
	return at;
}

/* The next part of a text up to one of these bytes; NULL behind the last. */
static char *part(char **text, const char *ends)
{
	return *text == NULL ? NULL : strsep(text, ends);
}

static L4_Word_t word(const char *text)
{
	return text == NULL ? 0 : strtoull(text, NULL, 16);
}

static L4_ThreadId_t thread(const char *text)
{
	return (L4_ThreadId_t) { word(text) };
}

static size_t words(char *text, L4_Word_t *list)
{
	size_t count = 0;

	if (strcmp(text, "-") == 0)
		return 0;
	for (char *one; (one = part(&text, ",")) != NULL && count < 2 * MOST;)
		list[count++] = word(one);
	return count;
}

static L4_StringItem_t sent_piece(const char *text)
{
	size_t count = strlen(text + 1) / 2;
	unsigned char *bytes = room(count);

	for (size_t i = 0; i < count; i++) {
		char pair[] = { text[1 + 2 * i], text[2 + 2 * i], 0 };
		bytes[i] = (unsigned char) strtoul(pair, NULL, 16);
	}
	return L4_StringItem((int) count, bytes);
}

static void append_strings(L4_Msg_t *msg, char *text)
{
	if (strcmp(text, "-") == 0)
		return;
	for (char *one; (one = part(&text, ",")) != NULL;) {
		L4_StringItem_t item = sent_piece(part(&one, "+"));
		for (char *more; (more = part(&one, "+")) != NULL;)
			L4_AddSubstringTo(&item, sent_piece(more));
		L4_MsgAppendStringItem(msg, &item);
	}
}

static L4_StringItem_t buffer_piece(const char *text)
{
	size_t count = strtoull(text, NULL, 10);
	unsigned char *at = room(count);

	pieces[piece_count].at = at;
	pieces[piece_count++].count = count;
	return L4_StringItem((int) count, at);
}

static L4_StringItem_t buffer_of(char *text)
{
	size_t begin = piece_count;
	L4_StringItem_t item = buffer_piece(part(&text, "+"));

	for (char *more; (more = part(&text, "+")) != NULL;)
		L4_AddSubstringTo(&item, buffer_piece(more));
	buffer[buffers].begin = begin;
	buffer[buffers++].end = piece_count;
	return item;
}

static void accept_buffers(char *text)
{
	L4_MsgBuffer_t list;

	buffers = piece_count = 0;
	L4_MsgBufferClear(&list);
	if (strcmp(text, "-") == 0) {
		L4_Accept(L4_UntypedWordsAcceptor);
		return;
	}
	if (strcmp(text, "s") == 0)
		text = NULL;
	for (char *one; (one = part(&text, ",")) != NULL;) {
		L4_StringItem_t item = buffer_of(one);
		L4_MsgBufferAppendRcvString(&list, &item);
	}
	L4_AcceptStrings(L4_StringItemsAcceptor, &list);
}

/* A string that was received: its bytes, from the pieces of its buffer. */
static void print_string(size_t k, size_t length)
{
	printf("x");
	for (size_t i = buffer[k].begin; i < buffer[k].end; i++)
		for (size_t j = 0; j < pieces[i].count && length > 0; j++, length--)
			printf("%02x", pieces[i].at[j]);
	if (length > 0)
		die("a string longer than its buffer");
}

/* What no string filled is as it was, in the buffers and between them. */
static void check_rest(size_t k, size_t length)
{
	for (size_t i = buffer[k].begin; i < buffer[k].end; i++)
		for (size_t j = 0; j < pieces[i].count + GAP; j++) {
			if (j < pieces[i].count && length > 0)
				length--;
			else if (pieces[i].at[j] != FILLING)
				die("a byte outside of the string was written");
		}
}

/* What version 2 tells of a call: its number, or 0, and its moment; `-` where it tells nothing. */
static void print_told(bool is_told, L4_Word_t number, L4_Word64_t moment)
{
	if (is_told)
		printf(" %llx,%llx", (unsigned long long) number, (unsigned long long) moment);
	else
		printf(" -");
}

/* The numbers of a call, each asked by its name, are those that l4_last_call gives. */
static void check_told(bool is_told, L4_Word_t number, L4_Word64_t moment)
{
	L4_Word64_t call = 1, over = 1, none = 1;

	if (l4_last_told(l4_told_call, &call) != is_told || l4_last_told(l4_told_moment, &over) != is_told)
		die("l4_last_told and l4_last_call differ on whether anything is told");
	if (call != number || over != moment || l4_last_told(l4_told_call, NULL) != is_told)
		die("l4_last_told tells other numbers than l4_last_call");
	if (l4_last_told((l4_told_t) 1000, &none) || none != 0)
		die("l4_last_told tells a number that there is not");
}

static void print_outcome(L4_MsgTag_t tag, L4_ThreadId_t from)
{
	static const L4_Msg_t nothing;
	L4_ThreadId_t actual = L4_IpcPropagated(tag) ? L4_ActualSender() : L4_nilthread;
	L4_Msg_t msg = nothing;
	L4_Word_t u = L4_UntypedWords(tag), t = 0, size, number;
	L4_Word64_t moment;
	bool is_told;
	L4_StringItem_t item;
	size_t count = 0;

	L4_MsgStore(tag, &msg);
	printf("%llx %llx %llx %llx ", (unsigned long long) tag.raw, (unsigned long long) from.raw,
	       (unsigned long long) actual.raw, (unsigned long long) L4_ErrorCode());
	for (L4_Word_t i = 0; i < u; i++)
		printf("%s%llx", i == 0 ? "" : ",", (unsigned long long) L4_MsgWord(&msg, i));
	printf(u == 0 ? "- " : " ");
	for (; (size = L4_MsgGetStringItem(&msg, t, &item)) != 0; t += size, count++) {
		printf("%s", count == 0 ? "" : ",");
		print_string(count, item.raw[0] >> 10);
		check_rest(count, item.raw[0] >> 10);
		if (L4_Substring(&item, 0) != pieces[buffer[count].begin].at)
			die("another address than that of the buffer");
	}
	for (size_t i = count; i < buffers && L4_IpcSucceeded(tag); i++)
		check_rest(i, 0);
	printf(count == 0 ? "-" : "");
	is_told = l4_last_call(&number, &moment);
	print_told(is_told, number, moment);
	check_told(is_told, number, moment);
}

static void ipc(char *line)
{
	L4_Word_t list[2 * MOST];
	L4_ThreadId_t to = thread(part(&line, " ")), source = thread(part(&line, " ")), from;
	L4_Word_t timeouts = word(part(&line, " ")), label = word(part(&line, " "));
	char *virtual = part(&line, " ");
	size_t count = words(part(&line, " "), list);
	L4_MsgTag_t tag;
	L4_Msg_t msg;

	used = 0;
	L4_MsgClear(&msg);
	L4_Set_MsgLabel(&msg, label);
	for (size_t i = 0; i < count; i++)
		L4_MsgAppendWord(&msg, list[i]);
	append_strings(&msg, part(&line, " "));
	accept_buffers(part(&line, " "));
	tag = L4_MsgMsgTag(&msg);
	if (strcmp(virtual, "-") != 0) {
		L4_Set_Propagation(&tag);
		L4_Set_VirtualSender(thread(virtual));
	}
	L4_Set_MsgMsgTag(&msg, tag);
	L4_MsgLoad(&msg);
	tag = L4_Ipc(to, source, timeouts, &from);
	print_outcome(tag, from);
}

static void load(char *line, void (*to)(int, int, const L4_Word_t *))
{
	L4_Word_t list[2 * MOST];
	int i = atoi(part(&line, " "));

	to(i, (int) words(part(&line, " "), list), list);
	printf("-");
}

static void exchange(char *line)
{
	L4_ThreadId_t dest = thread(part(&line, " ")), result, pager = L4_anythread;
	L4_Word_t old[5] = { 1, 1, 1, 1, 1 };
	L4_Word64_t moment;
	bool is_told;

	result = L4_ExchangeRegisters(dest, word(part(&line, " ")), 0, 0, 0, 0, L4_nilthread, &old[0], &old[1], &old[2],
				      &old[3], &old[4], &pager);
	if (old[1] != 0 || old[2] != 0 || old[3] != 0 || old[4] != 0 || !L4_IsNilThread(pager))
		die("a register of another thread");
	printf("%llx %llx %llx", (unsigned long long) result.raw, (unsigned long long) old[0],
	       (unsigned long long) L4_ErrorCode());
	is_told = l4_last_exchange(&moment);
	print_told(is_told, 0, moment);
}

static void connect_to(char *line)
{
	char *dir = part(&line, " ");
	unsigned space = (unsigned) atoi(part(&line, " ")), number = (unsigned) atoi(part(&line, " "));
	unsigned version = (unsigned) atoi(part(&line, " "));
	int status = version == 1 ? l4_connect(dir, space, number) : l4_connect_version(dir, space, number, version);

	printf("%d %llx", status, (unsigned long long) L4_Myself().raw);
}

static L4_Time_t period(const char *text)
{
	return L4_TimePeriod(strtoull(text, NULL, 10));
}

static void connect_wait(char *line)
{
	L4_Time_t patience = period(part(&line, " "));
	char *dir = part(&line, " ");
	unsigned space = (unsigned) atoi(part(&line, " ")), number = (unsigned) atoi(part(&line, " "));

	printf("%d", l4_connect_wait(dir, space, number, (unsigned) atoi(line), patience));
	printf(" %llx", (unsigned long long) L4_Myself().raw);
}

static void end_ipc(void)
{
	L4_ThreadId_t from;
	L4_MsgTag_t tag = l4_ipc_end(&from);

	print_outcome(tag, from);
}

/* Sends one string to nobody, or receives one from nobody. */
static void send_string(L4_StringItem_t item)
{
	L4_Msg_t msg;

	L4_MsgClear(&msg);
	L4_MsgAppendSimpleStringItem(&msg, item);
	L4_MsgAppendWord(&msg, 1);
	L4_MsgLoad(&msg);
	print_outcome(L4_Send(L4_GlobalId(9, 1)), L4_nilthread);
}

static void receive_string(L4_StringItem_t item)
{
	L4_MsgBuffer_t list;

	L4_MsgBufferClear(&list);
	L4_MsgBufferAppendSimpleRcvString(&list, item);
	L4_AcceptStrings(L4_StringItemsAcceptor, &list);
	print_outcome(L4_Receive(L4_GlobalId(9, 1)), L4_nilthread);
	L4_Accept(L4_UntypedWordsAcceptor);
}

/* Receives a string into all of these pages but the first 8 bytes and the last 8, and then nothing is left of them. */
static void receive_in_pages(const char *states)
{
	size_t page = (size_t) sysconf(_SC_PAGESIZE), count = strlen(states);
	char *pages = mmap(NULL, count * page, PROT_READ | PROT_WRITE, MAP_PRIVATE | MAP_ANONYMOUS, -1, 0);

	if (pages == MAP_FAILED)
		die("no pages");
	for (size_t i = 0; i < count; i++) {
		if (states[i] == 'r' && mprotect(pages + i * page, page, PROT_READ) < 0)
			die("mprotect");
		if (states[i] == 'x' && munmap(pages + i * page, page) < 0)
			die("munmap");
	}
	receive_string(L4_StringItem((int) (count * page - 16), pages + 8));
	for (size_t i = 0; i < count * page && strchr(states, 'x') == NULL; i++)
		if (pages[i] != 0)
			die("a byte of a buffer was written, and nothing came");
	for (size_t i = 0; i < count; i++)
		if (states[i] != 'x')
			(void) munmap(pages + i * page, page);
}

static L4_StringItem_t compound_item(void)
{
	L4_StringItem_t item = L4_StringItem(1, memory);

	L4_AddSubstringAddressTo(&item, memory + 8);
	return item;
}

/* Puts a compound string where a simple one is wanted. */
static void send_compound_put(void)
{
	L4_Msg_t msg;

	L4_MsgClear(&msg);
	L4_MsgAppendSimpleStringItem(&msg, L4_StringItem(1, memory));
	L4_MsgPutSimpleStringItem(&msg, 0, compound_item());
	L4_MsgLoad(&msg);
	print_outcome(L4_Send(L4_GlobalId(9, 1)), L4_nilthread);
}

/* Sends so many untyped words and one item of three words, by L4_MsgPut with this t. */
static void send_put(char *line)
{
	static const L4_Word_t list[2 * MOST];
	L4_StringItem_t item = compound_item();
	int u = atoi(part(&line, " "));
	L4_Msg_t msg;

	L4_MsgPut(&msg, 0, u, list, atoi(line), &item);
	L4_MsgLoad(&msg);
	print_outcome(L4_Send(L4_GlobalId(9, 1)), L4_nilthread);
}

/* A look up leaves the message as it is that is loaded. */
static L4_ThreadId_t look_up(const char *name)
{
	const L4_Word_t loaded[] = { 0x70002, 8, 9 };
	L4_Word_t there[3];
	L4_ThreadId_t found;

	L4_LoadMRs(0, 3, loaded);
	L4_Set_VirtualSender(L4_GlobalId(7, 1));
	found = l4_lookup(name);
	L4_StoreMRs(0, 3, there);
	if (memcmp(loaded, there, sizeof loaded) != 0 || L4_ActualSender().raw != L4_GlobalId(7, 1).raw)
		die("a look up changed registers");
	L4_Set_VirtualSender(L4_nilthread);
	return found;
}

static void list(const char *after)
{
	char name[L4_NAME_BYTES + 1] = "-";
	L4_ThreadId_t thread = L4_nilthread;
	int status = l4_list(strcmp(after, "-") == 0 ? "" : after, name, &thread);

	printf("%d %s %llx", status, name, (unsigned long long) thread.raw);
}

/* Answers an empty message of label 5, and by the label of the request what cannot be sent: a string at no address, one
 * more word than there can be, a register that is not there. With label 4 it calls 3.1 before, and gives that up. */
static L4_Bool_t answer_badly(L4_ThreadId_t from, L4_MsgTag_t tag, void *troubles)
{
	static const L4_Word_t list[2 * MOST];
	L4_Msg_t msg;

	(void) from, (void) troubles;
	L4_MsgClear(&msg);
	L4_Set_MsgLabel(&msg, 5);
	if (L4_Label(tag) == 4)
		(void) L4_Call_Timeouts(L4_GlobalId(3, 1), L4_Never, L4_TimePeriod(1000));
	if (L4_Label(tag) == 1)
		L4_MsgAppendSimpleStringItem(&msg, L4_StringItem(1, NULL));
	if (L4_Label(tag) == 2)
		L4_MsgPut(&msg, 5, MOST, list, 0, NULL);
	L4_MsgLoad(&msg);
	if (L4_Label(tag) == 3)
		L4_LoadMR(MOST, 1);
	if (L4_Label(tag) == 9)
		l4_disconnect();
	return true;
}

static void count_trouble(L4_ThreadId_t to, void *troubles)
{
	/* what a function of the program does here changes no answer */
	L4_LoadMR(0, 7);
	*(unsigned *) troubles += !L4_IsNilThread(to);
}

static void serve(void)
{
	unsigned troubles = 0;
	int status = l4_serve(answer_badly, count_trouble, &troubles);

	printf("%d %u", status, troubles);
}

static void serve_telling(const char *file)
{
	if (freopen(file, "w", stderr) == NULL)
		die("no such file");
	printf("%d", l4_serve(answer_badly, NULL, NULL));
	fflush(stderr);
}

static void run(char *line)
{
	const char *command = part(&line, " ");

	buffers = 0;
	if (strcmp(command, "connect") == 0)
		connect_to(line);
	else if (strcmp(command, "disconnect") == 0)
		l4_disconnect(), printf("-");
	else if (strcmp(command, "ipc") == 0)
		ipc(line);
	else if (strcmp(command, "exreg") == 0)
		exchange(line);
	else if (strcmp(command, "mrs") == 0)
		load(line, L4_LoadMRs);
	else if (strcmp(command, "brs") == 0)
		load(line, L4_LoadBRs);
	else if (strcmp(command, "send") == 0)
		print_outcome(L4_Send(thread(line)), L4_nilthread);
	else if (strcmp(command, "wait") == 0)
		print_outcome(L4_Wait_Timeout(L4_ZeroTime, NULL), L4_nilthread);
	else if (strcmp(command, "register") == 0)
		printf("%d", l4_register(line));
	else if (strcmp(command, "lookup") == 0)
		printf("%llx", (unsigned long long) look_up(line).raw);
	else if (strcmp(command, "list") == 0)
		list(line);
	else if (strcmp(command, "name_server") == 0)
		l4_use_name_server(thread(line));
	else if (strcmp(command, "connect_wait") == 0)
		connect_wait(line);
	else if (strcmp(command, "register_wait") == 0)
		printf("%d", l4_register_wait(strchr(line, ' ') + 1, period(line)));
	else if (strcmp(command, "lookup_wait") == 0)
		printf("%llx", (unsigned long long) l4_lookup_wait(strchr(line, ' ') + 1, period(line)).raw);
	else if (strcmp(command, "call_wait") == 0)
		print_outcome(l4_call_wait(thread(strchr(line, ' ')), period(line)), L4_nilthread);
	else if (strcmp(command, "serve") == 0)
		serve();
	else if (strcmp(command, "serve_telling") == 0)
		serve_telling(line);
	else if (strcmp(command, "begin") == 0)
		printf("%d", l4_ipc_begin(L4_nilthread, L4_anythread, L4_Timeouts(L4_Never, L4_Never)));
	else if (strcmp(command, "end") == 0)
		end_ipc();
	else if (strcmp(command, "readable") == 0)
		printf("%d", poll(&(struct pollfd) { .fd = l4_fd(), .events = POLLIN }, 1, 0));
	else if (strcmp(command, "item") == 0)
		send_string(L4_StringItem(atoi(line), memory));
	else if (strcmp(command, "null") == 0)
		send_string(L4_StringItem(1, NULL));
	else if (strcmp(command, "nowhere") == 0)
		send_string(L4_StringItem(1, (void *) 8));
	else if (strcmp(command, "buffer") == 0)
		receive_string(L4_StringItem(atoi(line), memory));
	else if (strcmp(command, "null_buffer") == 0)
		receive_string(L4_StringItem(1, NULL));
	else if (strcmp(command, "nowhere_buffer") == 0)
		receive_string(L4_StringItem(64, (void *) 16));
	else if (strcmp(command, "buffer_in") == 0)
		receive_in_pages(line);
	else if (strcmp(command, "compound") == 0)
		send_string(compound_item());
	else if (strcmp(command, "compound_buffer") == 0)
		receive_string(compound_item());
	else if (strcmp(command, "compound_put") == 0)
		send_compound_put();
	else if (strcmp(command, "put") == 0)
		send_put(line);
	else
		die(command);
}

int main(void)
{
	static char line[LINE_BYTES];

	while (fgets(line, sizeof line, stdin) != NULL) {
		line[strcspn(line, "\n")] = 0;
		errno = 0;
		run(line);
		printf(" | %d | %s\n", errno, l4_error());
		fflush(stdout);
	}
	return 0;
}
