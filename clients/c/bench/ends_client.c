/* The works of bench/relays/load.c over the C client, to compare it with that folder's own client of l4d on the same server. Threads
 * have the same numbers: servers from 1 on, clients from 101 on. */
#include "ends.h"

#include <l4.h>

#include <stdio.h>
#include <stdlib.h>
#include <string.h>

static void fail(const struct cfg *cfg, const char *what)
{
	die(cfg, "%s: %s", what, l4_error());
	abort();
}

static struct cfg settings;
static L4_ThreadId_t peer;

static void *open_as(const struct cfg *cfg, unsigned number)
{
	settings = *cfg;
	if (l4_connect_wait(cfg->addr, 1, number, 1, L4_TimePeriod(5000000)) < 0)
		fail(cfg, "l4_connect");
	return &settings;
}

static void *open_server(const struct cfg *cfg, int k)
{
	void *handle = open_as(cfg, (unsigned) k + 1);

	cfg->sh->srvid[k] = L4_Myself().raw;
	return handle;
}

static void *open_client(const struct cfg *cfg, int k, int server)
{
	void *handle = open_as(cfg, (unsigned) k + 101);

	peer.raw = cfg->sh->srvid[server];
	return handle;
}

/* The word of a request, or the first bytes of its string, and 1. */
static L4_Bool_t answer(L4_ThreadId_t from, L4_MsgTag_t tag, void *string)
{
	L4_Word_t word;

	(void) from, (void) tag;
	if (settings.size > 0)
		memcpy(&word, string, sizeof word);
	else
		L4_StoreMR(1, &word);
	L4_Set_MsgTag((L4_MsgTag_t) { 1 });
	L4_LoadMR(1, word + 1);
	return true;
}

static void serve(void *handle)
{
	char *string = NULL;

	(void) handle;
	if (settings.size > 0) {
		L4_MsgBuffer_t buffers;

		string = malloc(settings.size);
		L4_MsgBufferClear(&buffers);
		L4_MsgBufferAppendSimpleRcvString(&buffers, L4_StringItem((int) settings.size, string));
		L4_AcceptStrings(L4_StringItemsAcceptor, &buffers);
	}
	l4_serve(answer, NULL, string);
	fail(&settings, "l4_serve");
}

static int call(void *handle, uint64_t word, const void *string, size_t size, uint64_t *out)
{
	L4_Msg_t msg;

	(void) handle;
	L4_MsgClear(&msg);
	if (string != NULL)
		L4_MsgAppendSimpleStringItem(&msg, L4_StringItem((int) size, (void *) string));
	else
		L4_MsgAppendWord(&msg, word);
	L4_MsgLoad(&msg);
	if (L4_IpcFailed(L4_Call(peer)))
		fail(&settings, "L4_Call");
	L4_StoreMR(1, out);
	return 0;
}

const struct be BE = { "client", open_server, serve, open_client, call, NULL, NULL };
