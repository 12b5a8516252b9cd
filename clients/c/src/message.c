/* Messages in memory, and the virtual registers from which they are sent. */
#include "internal.h"

#include <string.h>

THREAD_LOCAL struct thread l4_thread;

static size_t untyped_of(const L4_Msg_t *msg)
{
	return msg->raw[0] & 0x3f;
}

static size_t typed_of(const L4_Msg_t *msg)
{
	return msg->raw[0] >> 6 & 0x3f;
}

/* The words behind the tag, or more than there can be where the message is spoilt. */
static size_t words_of(const L4_Msg_t *msg)
{
	return untyped_of(msg) + typed_of(msg);
}

static void count(L4_Msg_t *msg, size_t untyped, size_t typed)
{
	msg->raw[0] = (msg->raw[0] & ~(L4_Word_t) TAG_SPOILT) | typed << 6 | untyped;
}

static bool is_spoilt(const L4_Msg_t *msg)
{
	return words_of(msg) > MAX_MESSAGE_WORDS;
}

/* What spoils a message first is what its Ipc tells. */
static void spoil(L4_Msg_t *msg)
{
	if (!is_spoilt(msg))
		msg->raw[0] |= TAG_SPOILT;
}

static void spoil_by_item(L4_Msg_t *msg)
{
	if (!is_spoilt(msg))
		count(msg, TAG_SPOILT_BY_ITEM & 0x3f, TAG_SPOILT_BY_ITEM >> 6);
}

void L4_MsgClear(L4_Msg_t *msg)
{
	msg->raw[0] = 0;
}

void L4_MsgAppendWord(L4_Msg_t *msg, L4_Word_t w)
{
	size_t u = untyped_of(msg), t = typed_of(msg);

	if (u + t >= MAX_MESSAGE_WORDS) {
		spoil(msg);
		return;
	}
	/* the typed words stand behind the untyped ones */
	memmove(msg->raw + 2 + u, msg->raw + 1 + u, t * sizeof msg->raw[0]);
	msg->raw[1 + u] = w;
	count(msg, u + 1, t);
}

void L4_MsgAppendStringItem(L4_Msg_t *msg, const L4_StringItem_t *s)
{
	size_t u = untyped_of(msg), t = typed_of(msg), words = l4_item_words(s->raw, 0, MAX_MESSAGE_WORDS);

	if (words == 0) {
		spoil_by_item(msg);
		return;
	}
	if (u + t + words > MAX_MESSAGE_WORDS) {
		spoil(msg);
		return;
	}
	memcpy(msg->raw + 1 + u + t, s->raw, words * sizeof msg->raw[0]);
	count(msg, u, t + words);
}

void L4_MsgAppendSimpleStringItem(L4_Msg_t *msg, L4_StringItem_t s)
{
	if (L4_CompoundString(&s))
		spoil_by_item(msg);
	else
		L4_MsgAppendStringItem(msg, &s);
}

void L4_MsgPut(L4_Msg_t *msg, L4_Word_t label, int u, const L4_Word_t *ut, int t, const L4_StringItem_t *Items)
{
	L4_MsgClear(msg);
	L4_Set_MsgLabel(msg, label);
	for (int i = 0; i < u && !is_spoilt(msg); i++)
		L4_MsgAppendWord(msg, ut[i]);
	for (size_t i = 0; !is_spoilt(msg) && (int) typed_of(msg) < t; i++)
		L4_MsgAppendStringItem(msg, &Items[i]);
	/* t ends inside an item, or u or t is no number of words */
	if (u < 0 || (int) typed_of(msg) != t)
		spoil_by_item(msg);
}

void L4_Put(L4_Msg_t *msg, L4_Word_t label, int u, const L4_Word_t *ut, int t, const L4_StringItem_t *Items)
{
	L4_MsgPut(msg, label, u, ut, t, Items);
}

void L4_MsgGet(const L4_Msg_t *msg, L4_Word_t *ut, L4_StringItem_t *Items)
{
	if (is_spoilt(msg))
		return;
	if (untyped_of(msg) > 0)
		memcpy(ut, msg->raw + 1, untyped_of(msg) * sizeof *ut);
	for (size_t t = 0, words; (words = L4_MsgGetStringItem(msg, t, Items)) != 0; t += words)
		Items++;
}

void L4_Get(const L4_Msg_t *msg, L4_Word_t *ut, L4_StringItem_t *Items)
{
	L4_MsgGet(msg, ut, Items);
}

L4_MsgTag_t L4_MsgMsgTag(const L4_Msg_t *msg)
{
	return (L4_MsgTag_t) { msg->raw[0] };
}

void L4_Set_MsgMsgTag(L4_Msg_t *msg, L4_MsgTag_t t)
{
	msg->raw[0] = t.raw;
}

L4_Word_t L4_MsgLabel(const L4_Msg_t *msg)
{
	return L4_Label(L4_MsgMsgTag(msg));
}

void L4_Set_MsgLabel(L4_Msg_t *msg, L4_Word_t label)
{
	msg->raw[0] = L4_MsgTagAddLabel(L4_MsgMsgTag(msg), label).raw;
}

void L4_MsgLoad(const L4_Msg_t *msg)
{
	/* of a spoilt message the tag alone is loaded, which no Ipc sends */
	L4_LoadMRs(0, is_spoilt(msg) ? 1 : (int) (1 + words_of(msg)), msg->raw);
}

void L4_MsgStore(L4_MsgTag_t t, L4_Msg_t *msg)
{
	msg->raw[0] = t.raw;
	if (!is_spoilt(msg))
		L4_StoreMRs(1, (int) words_of(msg), msg->raw + 1);
}

void L4_MsgPutWord(L4_Msg_t *msg, L4_Word_t u, L4_Word_t w)
{
	if (u < MAX_MESSAGE_WORDS)
		msg->raw[1 + u] = w;
	else
		spoil(msg);
}

void L4_MsgPutStringItem(L4_Msg_t *msg, L4_Word_t t, const L4_StringItem_t *s)
{
	size_t u = untyped_of(msg), words = l4_item_words(s->raw, 0, MAX_MESSAGE_WORDS);

	if (words == 0)
		spoil_by_item(msg);
	else if (t > MAX_MESSAGE_WORDS || u + t + words > MAX_MESSAGE_WORDS)
		spoil(msg);
	else
		memcpy(msg->raw + 1 + u + t, s->raw, words * sizeof msg->raw[0]);
}

void L4_MsgPutSimpleStringItem(L4_Msg_t *msg, L4_Word_t t, L4_StringItem_t s)
{
	if (L4_CompoundString(&s))
		spoil_by_item(msg);
	else
		L4_MsgPutStringItem(msg, t, &s);
}

L4_Word_t L4_MsgWord(const L4_Msg_t *msg, L4_Word_t u)
{
	return u < untyped_of(msg) ? msg->raw[1 + u] : 0;
}

void L4_MsgGetWord(const L4_Msg_t *msg, L4_Word_t u, L4_Word_t *w)
{
	*w = L4_MsgWord(msg, u);
}

L4_Word_t L4_MsgGetStringItem(const L4_Msg_t *msg, L4_Word_t t, L4_StringItem_t *s)
{
	size_t words;

	if (is_spoilt(msg) || t >= typed_of(msg))
		return 0;
	words = l4_item_words(msg->raw + 1 + untyped_of(msg), t, typed_of(msg));
	memcpy(s->raw, msg->raw + 1 + untyped_of(msg) + t, words * sizeof s->raw[0]);
	return words;
}

/* Registers i to i + k - 1 of so many are there; else the next Ipc tells that they are not. */
static bool are_there(int i, int k, int registers)
{
	if (i >= 0 && k >= 0 && i <= registers && k <= registers - i)
		return true;
	l4_thread.is_misused = true;
	return false;
}

L4_MsgTag_t L4_MsgTag(void)
{
	return (L4_MsgTag_t) { l4_thread.mr[0] };
}

void L4_Set_MsgTag(L4_MsgTag_t t)
{
	l4_thread.mr[0] = t.raw;
}

void L4_StoreMRs(int i, int k, L4_Word_t *w)
{
	if (are_there(i, k, MESSAGE_REGISTERS) && k > 0)
		memcpy(w, l4_thread.mr + i, (size_t) k * sizeof *w);
}

void L4_LoadMRs(int i, int k, const L4_Word_t *w)
{
	if (are_there(i, k, MESSAGE_REGISTERS) && k > 0)
		memcpy(l4_thread.mr + i, w, (size_t) k * sizeof *w);
}

void L4_StoreMR(int i, L4_Word_t *w)
{
	L4_StoreMRs(i, 1, w);
}

void L4_LoadMR(int i, L4_Word_t w)
{
	L4_LoadMRs(i, 1, &w);
}

void L4_StoreBRs(int i, int k, L4_Word_t *w)
{
	if (are_there(i, k, BUFFER_REGISTERS) && k > 0)
		memcpy(w, l4_thread.br + i, (size_t) k * sizeof *w);
}

void L4_LoadBRs(int i, int k, const L4_Word_t *w)
{
	if (are_there(i, k, BUFFER_REGISTERS) && k > 0)
		memcpy(l4_thread.br + i, w, (size_t) k * sizeof *w);
}

void L4_StoreBR(int i, L4_Word_t *w)
{
	L4_StoreBRs(i, 1, w);
}

void L4_LoadBR(int i, L4_Word_t w)
{
	L4_LoadBRs(i, 1, &w);
}

void L4_Accept(L4_Acceptor_t a)
{
	l4_thread.br[0] = a.raw;
}

void L4_AcceptStrings(L4_Acceptor_t a, const L4_MsgBuffer_t *b)
{
	L4_Accept(a);
	L4_LoadBRs(1, MAX_BUFFER_WORDS, b->raw);
}

L4_Acceptor_t L4_Accepted(void)
{
	return (L4_Acceptor_t) { l4_thread.br[0] };
}
