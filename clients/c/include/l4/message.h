/* Messages: the tag, message and buffer registers, string items, and what composes them.
 *
 * A message has at most 63 words behind its tag, untyped and typed together. What is appended or put beyond that spoils
 * the message: its tag then counts more than 63 words, so that the Ipc that would send it fails (F4) and sends nothing. C11
 * where it is no string item, or has several substrings and the function takes a simple one, or where a u or t of L4_MsgPut
 * is below 0 or this t ends inside an item. A string or buffer of some bytes where no memory is fails with C12.
 * Registers beyond MR63 or BR32, or before the first, are not there: the next Ipc fails (C2). */
#ifndef L4_MESSAGE_H
#define L4_MESSAGE_H

#include <l4/types.h>

L4_BEGIN_C_

/* Tags */

#define L4_Niltag L4_MADE_(L4_MsgTag_t, 0)

static inline L4_Bool_t L4_IsMsgTagEqual(L4_MsgTag_t l, L4_MsgTag_t r)
{
	return l.raw == r.raw;
}

static inline L4_Bool_t L4_IsMsgTagNotEqual(L4_MsgTag_t l, L4_MsgTag_t r)
{
	return l.raw != r.raw;
}

static inline L4_Word_t L4_Label(L4_MsgTag_t t)
{
	return t.raw >> 16;
}

static inline L4_Word_t L4_UntypedWords(L4_MsgTag_t t)
{
	return t.raw & 0x3f;
}

static inline L4_Word_t L4_TypedWords(L4_MsgTag_t t)
{
	return t.raw >> 6 & 0x3f;
}

/* The same tag with another label, of 48 bits. */
static inline L4_MsgTag_t L4_MsgTagAddLabel(L4_MsgTag_t t, L4_Word_t label)
{
	return L4_MADE_(L4_MsgTag_t, (t.raw & 0xffff) | label << 16);
}

static inline L4_MsgTag_t L4_MsgTagAddLabelTo(L4_MsgTag_t *t, L4_Word_t label)
{
	return *t = L4_MsgTagAddLabel(*t, label);
}

/* MR0 of the calling thread. */
L4_MsgTag_t L4_MsgTag(void);
void L4_Set_MsgTag(L4_MsgTag_t t);

/* Message registers: MR0 to MR63 of the calling thread */

void L4_StoreMR(int i, L4_Word_t *w);
void L4_LoadMR(int i, L4_Word_t w);
void L4_StoreMRs(int i, int k, L4_Word_t *w);
void L4_LoadMRs(int i, int k, const L4_Word_t *w);

/* String items: an item is a descriptor and its pointers, and so on where its string goes on. In a descriptor bit 0 is C,
 * bits 1 and 2 are cache hints, bit 3 is 0, bits 4 to 8 have the number of pointers less one, bit 9 is c, and the length
 * of each substring stands from bit 10 on. An item is simple where it has one substring; then raw[0] >> 10 is its
 * length. What does not fit the 63 words, or has a negative size, makes an item that is none (bit 3 is 1): a message or
 * buffer to which it is appended is spoilt. */
typedef struct {
	L4_Word_t raw[63];
} L4_StringItem_t;

L4_StringItem_t L4_StringItem(int size, void *address);
L4_Bool_t L4_IsStringItem(const L4_StringItem_t *s);
L4_Bool_t L4_CompoundString(const L4_StringItem_t *s);
/* How many substrings the item has, in all its descriptors, and the address of one of them, from 0 on. */
L4_Word_t L4_Substrings(const L4_StringItem_t *s);
void *L4_Substring(const L4_StringItem_t *s, L4_Word_t n);
/* The substrings of another item, or one more substring of the length of the last one. Both answer dest. */
L4_StringItem_t *L4_AddSubstringTo(L4_StringItem_t *dest, L4_StringItem_t AdditionalSubstring);
L4_StringItem_t *L4_AddSubstringAddressTo(L4_StringItem_t *dest, void *AdditionalSubstringAddress);

/* Messages in memory: raw[0] is the tag */

typedef struct {
	L4_Word_t raw[64];
} L4_Msg_t;

void L4_MsgClear(L4_Msg_t *msg);
/* A message of u untyped words and of the items that have t words together, one behind the other in Items. */
void L4_MsgPut(L4_Msg_t *msg, L4_Word_t label, int u, const L4_Word_t *ut, int t, const L4_StringItem_t *Items);
void L4_Put(L4_Msg_t *msg, L4_Word_t label, int u, const L4_Word_t *ut, int t, const L4_StringItem_t *Items);
/* The untyped words, and each item into one of Items. */
void L4_MsgGet(const L4_Msg_t *msg, L4_Word_t *ut, L4_StringItem_t *Items);
void L4_Get(const L4_Msg_t *msg, L4_Word_t *ut, L4_StringItem_t *Items);
L4_MsgTag_t L4_MsgMsgTag(const L4_Msg_t *msg);
void L4_Set_MsgMsgTag(L4_Msg_t *msg, L4_MsgTag_t t);
L4_Word_t L4_MsgLabel(const L4_Msg_t *msg);
void L4_Set_MsgLabel(L4_Msg_t *msg, L4_Word_t label);
/* To the message registers, and from them as many words as t counts. */
void L4_MsgLoad(const L4_Msg_t *msg);
void L4_MsgStore(L4_MsgTag_t t, L4_Msg_t *msg);
void L4_MsgAppendWord(L4_Msg_t *msg, L4_Word_t w);
/* The first substring of an item alone; an item with more of them spoils the message. */
void L4_MsgAppendSimpleStringItem(L4_Msg_t *msg, L4_StringItem_t s);
void L4_MsgAppendStringItem(L4_Msg_t *msg, const L4_StringItem_t *s);
/* The untyped word u, and the item that begins at the typed word t, both from 0 on. The tag stays as it is. */
void L4_MsgPutWord(L4_Msg_t *msg, L4_Word_t u, L4_Word_t w);
void L4_MsgPutSimpleStringItem(L4_Msg_t *msg, L4_Word_t t, L4_StringItem_t s);
void L4_MsgPutStringItem(L4_Msg_t *msg, L4_Word_t t, const L4_StringItem_t *s);
/* 0 where the message has no such word. */
L4_Word_t L4_MsgWord(const L4_Msg_t *msg, L4_Word_t u);
void L4_MsgGetWord(const L4_Msg_t *msg, L4_Word_t u, L4_Word_t *w);
/* How many words the item has: t and this make the place of the next one. 0 where no item is there; s is untouched then. */
L4_Word_t L4_MsgGetStringItem(const L4_Msg_t *msg, L4_Word_t t, L4_StringItem_t *s);

/* What a receive accepts: BR0, and from BR1 on the buffers of strings */

#define L4_UntypedWordsAcceptor L4_MADE_(L4_Acceptor_t, 0)
#define L4_StringItemsAcceptor L4_MADE_(L4_Acceptor_t, 1)

static inline L4_Acceptor_t L4_AddAcceptor(L4_Acceptor_t l, L4_Acceptor_t r)
{
	return L4_MADE_(L4_Acceptor_t, l.raw | r.raw);
}

static inline L4_Acceptor_t L4_AddAcceptorTo(L4_Acceptor_t *l, L4_Acceptor_t r)
{
	return *l = L4_AddAcceptor(*l, r);
}

static inline L4_Acceptor_t L4_RemoveAcceptor(L4_Acceptor_t l, L4_Acceptor_t r)
{
	return L4_MADE_(L4_Acceptor_t, l.raw & ~r.raw);
}

static inline L4_Acceptor_t L4_RemoveAcceptorFrom(L4_Acceptor_t *l, L4_Acceptor_t r)
{
	return *l = L4_RemoveAcceptor(*l, r);
}

static inline L4_Bool_t L4_HasStringItems(L4_Acceptor_t a)
{
	return (a.raw & 1) != 0;
}

/* Buffers in memory: raw[0] is BR1. Each item is a string buffer; C (bit 0 of its first descriptor) says that another
 * item follows. A word with bit 3 in the place of an item ends the list, so L4_MsgBufferClear leaves no buffer. */
typedef struct {
	L4_Word_t raw[32];
} L4_MsgBuffer_t;

void L4_MsgBufferClear(L4_MsgBuffer_t *b);
/* What does not fit the 32 words, or is no such item, spoils the buffers: the receive that would use them fails (F5, C11). */
void L4_MsgBufferAppendSimpleRcvString(L4_MsgBuffer_t *b, L4_StringItem_t s);
void L4_MsgBufferAppendRcvString(L4_MsgBuffer_t *b, const L4_StringItem_t *s);

/* The acceptor of all receives from now on, with the buffers as they stand in BR1 on, or with these; also of those after another
 * l4_connect of the calling thread. */
void L4_Accept(L4_Acceptor_t a);
void L4_AcceptStrings(L4_Acceptor_t a, const L4_MsgBuffer_t *b);
L4_Acceptor_t L4_Accepted(void);

/* Buffer registers: BR0 to BR32 of the calling thread */

void L4_StoreBR(int i, L4_Word_t *w);
void L4_LoadBR(int i, L4_Word_t w);
void L4_StoreBRs(int i, int k, L4_Word_t *w);
void L4_LoadBRs(int i, int k, const L4_Word_t *w);

L4_END_C_

#endif
