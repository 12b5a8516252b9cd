/* A driver: it waits for its device and for messages. As in L4 the device speaks by messages, too: a thread of the process
 * waits for it, and tells the driver each line as an interrupt would. Each line goes to one reader.
 *
 *     driver DIR serve DEVICE        threads 15 and 16: the lines of this file, which may be a FIFO; nobody need write to it yet
 *     driver DIR read DRIVER         thread 17: prints the next line; gives up where its own standard input ends first */
#define _POSIX_C_SOURCE 200809L

#include "common.h"

#include <errno.h>
#include <poll.h>
#include <pthread.h>
#include <string.h>
#include <sys/stat.h>

enum { DRIVER = 15, WATCHER = 16, READER = 17, LINE_BYTES = 256, READERS = 8 };

/* Labels: of the watcher's message, of a reader's, and of the answer to what is neither, or to one reader too many. */
enum { LINE = 1, READ = 2, DENIED = 3 };

struct driver {
	const char *dir;
	FILE *device;
	L4_ThreadId_t thread;
	/* what comes, and the line that no reader has yet: its watcher waits for the answer meanwhile */
	char buffer[LINE_BYTES], line[LINE_BYTES];
	size_t bytes;
	L4_ThreadId_t watcher;
	/* who asked for a line, in their order */
	L4_ThreadId_t readers[READERS];
	size_t count;
};

static L4_Bool_t answer_label(L4_Word_t label)
{
	L4_Set_MsgTag(L4_MsgTagAddLabel(L4_Niltag, label));
	return true;
}

/* Hands the line to a reader. False where it does not wait any more; the line stays then. */
static bool hand_out(struct driver *driver, L4_ThreadId_t reader)
{
	L4_Msg_t msg;

	L4_MsgClear(&msg);
	L4_MsgAppendSimpleStringItem(&msg, L4_StringItem((int) driver->bytes, driver->line));
	L4_MsgLoad(&msg);
	return L4_IpcSucceeded(L4_Reply(reader));
}

/* Gives the line to the first who waits still, where both are there, and lets the watcher go on. */
static void match(struct driver *driver)
{
	while (!L4_IsNilThread(driver->watcher) && driver->count > 0) {
		L4_ThreadId_t reader = driver->readers[0];

		memmove(driver->readers, driver->readers + 1, --driver->count * sizeof reader);
		if (!hand_out(driver, reader))
			continue;
		(void) answer_label(0);
		(void) L4_Reply(driver->watcher);
		driver->watcher = L4_nilthread;
	}
}

/* Whether there is room for one more reader. A thread asks once: an earlier one of its number has ended. */
static bool has_room(struct driver *driver, L4_ThreadId_t reader)
{
	size_t kept = 0;

	for (size_t i = 0; i < driver->count; i++)
		if (L4_ThreadNo(driver->readers[i]) != L4_ThreadNo(reader))
			driver->readers[kept++] = driver->readers[i];
	driver->count = kept;
	return kept < READERS;
}

static L4_Bool_t answer(L4_ThreadId_t from, L4_MsgTag_t tag, void *data)
{
	struct driver *driver = data;
	L4_Msg_t msg;
	L4_StringItem_t item;

	L4_MsgStore(tag, &msg);
	if (L4_ThreadNo(from) == WATCHER && L4_Label(tag) == LINE && L4_MsgGetStringItem(&msg, 0, &item) != 0) {
		driver->bytes = item.raw[0] >> 10;
		memcpy(driver->line, driver->buffer, driver->bytes);
		driver->watcher = from;
	} else if (L4_Label(tag) == READ && has_room(driver, from)) {
		driver->readers[driver->count++] = from;
	} else {
		return answer_label(DENIED);
	}
	match(driver);
	return false;
}

/* Waits until the device has something. False where the connection ended before. */
static bool wait_for_device(FILE *device)
{
	struct pollfd ready[2] = { { .fd = fileno(device), .events = POLLIN }, { .fd = l4_fd(), .events = POLLIN } };

	while (poll(ready, 2, -1) < 0)
		if (errno != EINTR)
			return false;
	/* no call is open, so nothing comes but the end */
	return ready[1].revents == 0;
}

/* Whether a thread of the space disturbed the last call: cancelled a phase, aborted its transfer, or sent strings in the name of
 * the driver. */
static bool is_disturbed(void)
{
	L4_Word_t error = L4_ErrorCode() >> 1 & 7;

	return error == 3 || error == 4 || error == 7;
}

/* Has the driver hand out a line. Over when a reader has it, whoever disturbs that. False where it fails. */
static bool is_handed_out(const struct driver *driver, const L4_Msg_t *msg)
{
	bool is_delivered = false;

	for (;;) {
		L4_MsgLoad(msg);
		if (L4_IpcSucceeded(is_delivered ? L4_Receive(driver->thread) : L4_Call(driver->thread)))
			return true;
		if (!is_disturbed())
			return false;
		/* of a receive phase that failed the line was delivered */
		is_delivered = L4_ErrorCode() & 1;
	}
}

/* The thread that waits for the device, and for the end of l4d. */
static void *watch(void *data)
{
	struct driver *driver = data;
	char line[LINE_BYTES];

	connect_as(driver->dir, WATCHER);
	/* nothing is read ahead, so that poll sees all that is there */
	setvbuf(driver->device, NULL, _IONBF, 0);
	while (wait_for_device(driver->device) && fgets(line, sizeof line, driver->device) != NULL) {
		L4_Msg_t msg;

		L4_MsgClear(&msg);
		L4_Set_MsgLabel(&msg, LINE);
		L4_MsgAppendSimpleStringItem(&msg, L4_StringItem((int) strcspn(line, "\n"), line));
		if (!is_handed_out(driver, &msg))
			fail("watch");
	}
	/* a call tells whether the connection is there still */
	L4_Sleep(L4_ZeroTime);
	if (L4_IsNilThread(L4_Myself()))
		fail("watch");
	if (ferror(driver->device)) {
		fputs("driver: the device cannot be read\n", stderr);
		exit(1);
	}
	fputs("driver: the device has ended\n", stderr);
	exit(0);
}

/* Opens the device. A FIFO is opened to be written, too: so nothing waits here until somebody writes to it, and it does not
 * end with the last one who does. */
static FILE *open_device(const char *path)
{
	struct stat found;

	return fopen(path, stat(path, &found) == 0 && S_ISFIFO(found.st_mode) ? "r+" : "r");
}

static void serve_lines(const char *dir, const char *path)
{
	static struct driver driver;
	L4_MsgBuffer_t buffers;
	pthread_t watcher;

	connect_as(dir, DRIVER);
	driver.dir = dir;
	driver.thread = L4_Myself();
	driver.device = open_device(path);
	if (driver.device == NULL || pthread_create(&watcher, NULL, watch, &driver) != 0) {
		perror(path);
		exit(1);
	}
	L4_MsgBufferClear(&buffers);
	L4_MsgBufferAppendSimpleRcvString(&buffers, L4_StringItem(LINE_BYTES, driver.buffer));
	L4_AcceptStrings(L4_StringItemsAcceptor, &buffers);
	serve("driver", answer, &driver);
}

/* One call beside something else: it is begun, poll waits for both, and it is ended when its outcome comes. */
static void read_line(L4_ThreadId_t driver)
{
	struct pollfd ready[2] = { { .fd = 0, .events = POLLIN }, { .fd = l4_fd(), .events = POLLIN } };
	char line[LINE_BYTES], byte;
	L4_MsgBuffer_t buffers;
	L4_StringItem_t item;
	L4_MsgTag_t tag;
	L4_Msg_t msg;

	L4_MsgBufferClear(&buffers);
	L4_MsgBufferAppendSimpleRcvString(&buffers, L4_StringItem(LINE_BYTES, line));
	L4_AcceptStrings(L4_StringItemsAcceptor, &buffers);
	answer_label(READ);
	if (l4_ipc_begin(driver, driver, L4_Timeouts(L4_Never, L4_Never)) < 0)
		fail("read");
	while (ready[1].revents == 0) {
		if (poll(ready, 2, -1) < 0 && errno != EINTR)
			exit(1);
		if (ready[1].revents == 0 && ready[0].revents != 0 && fread(&byte, 1, 1, stdin) == 0) {
			printf("gave up\n");
			l4_disconnect();
			exit(0);
		}
	}
	tag = l4_ipc_end(NULL);
	if (L4_IpcFailed(tag))
		fail("read");
	L4_MsgStore(tag, &msg);
	if (L4_MsgGetStringItem(&msg, 0, &item) == 0) {
		printf("denied\n");
		l4_disconnect();
		exit(1);
	}
	printf("%.*s\n", (int) (item.raw[0] >> 10), line);
}

int main(int argc, char **argv)
{
	if (argc == 4 && strcmp(argv[2], "serve") == 0) {
		serve_lines(argv[1], argv[3]);
	} else if (argc == 4 && strcmp(argv[2], "read") == 0) {
		connect_as(argv[1], READER);
		read_line(thread_of(argv[3]));
		l4_disconnect();
	} else {
		fprintf(stderr, "usage: driver DIR serve DEVICE | driver DIR read DRIVER\n");
		return 2;
	}
	return 0;
}
