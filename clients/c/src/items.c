/* String items and the buffers that are made of them. */
#include "internal.h"

#include <string.h>

enum { ITEM_WORDS = 63, POINTERS = 32 };

size_t l4_item_words(const L4_Word_t *words, size_t at, size_t limit)
{
	size_t start = at;
	L4_Word_t descriptor;

	do {
		if (at >= limit)
			return 0;
		descriptor = words[at];
		if (descriptor & ITEM_NONE || item_pointers(descriptor) >= limit - at)
			return 0;
		at += 1 + item_pointers(descriptor);
	} while (descriptor & ITEM_GOES_ON);
	return at - start;
}

unsigned l4_string_at(const L4_Word_t *words, size_t count, L4_Word_t offset)
{
	L4_Word_t end = 0;
	unsigned string = 1;

	for (size_t at = 0; at < count; at += 1 + item_pointers(words[at])) {
		end += item_pointers(words[at]) * item_length(words[at]);
		if (offset < end)
			return string;
		string += words[at] & ITEM_GOES_ON ? 0 : 1;
	}
	return 0;
}

/* Where the last descriptor of an item stands. */
static size_t last_descriptor(const L4_StringItem_t *s)
{
	size_t at = 0;

	while (s->raw[at] & ITEM_GOES_ON)
		at += 1 + item_pointers(s->raw[at]);
	return at;
}

static void spoil_item(L4_StringItem_t *s)
{
	*s = (L4_StringItem_t) { { ITEM_NONE } };
}

L4_StringItem_t L4_StringItem(int size, void *address)
{
	L4_StringItem_t s;

	/* the words behind these two are none of the item, and nobody reads them */
	s.raw[0] = size < 0 ? ITEM_NONE : (L4_Word_t) size << 10;
	s.raw[1] = pointer_to(address);
	return s;
}

L4_Bool_t L4_IsStringItem(const L4_StringItem_t *s)
{
	return l4_item_words(s->raw, 0, ITEM_WORDS) != 0;
}

L4_Bool_t L4_CompoundString(const L4_StringItem_t *s)
{
	/* one descriptor and one pointer are the least that an item has */
	return l4_item_words(s->raw, 0, ITEM_WORDS) > 2;
}

L4_Word_t L4_Substrings(const L4_StringItem_t *s)
{
	size_t words = l4_item_words(s->raw, 0, ITEM_WORDS);
	L4_Word_t count = 0;

	for (size_t at = 0; at < words; at += 1 + item_pointers(s->raw[at]))
		count += item_pointers(s->raw[at]);
	return count;
}

void *L4_Substring(const L4_StringItem_t *s, L4_Word_t n)
{
	size_t words = l4_item_words(s->raw, 0, ITEM_WORDS);

	for (size_t at = 0; at < words; at += 1 + item_pointers(s->raw[at])) {
		if (n < item_pointers(s->raw[at]))
			return memory_at(s->raw[at + 1 + n]);
		n -= item_pointers(s->raw[at]);
	}
	return NULL;
}

L4_StringItem_t *L4_AddSubstringTo(L4_StringItem_t *dest, L4_StringItem_t AdditionalSubstring)
{
	size_t there = l4_item_words(dest->raw, 0, ITEM_WORDS);
	size_t more = l4_item_words(AdditionalSubstring.raw, 0, ITEM_WORDS);

	if (there == 0 || more == 0 || there + more > ITEM_WORDS) {
		spoil_item(dest);
		return dest;
	}
	dest->raw[last_descriptor(dest)] |= ITEM_GOES_ON;
	/* C belongs to the whole item, so it stands in the first descriptor alone */
	AdditionalSubstring.raw[0] &= ~(L4_Word_t) ITEM_MORE;
	memcpy(dest->raw + there, AdditionalSubstring.raw, more * sizeof dest->raw[0]);
	return dest;
}

L4_StringItem_t *L4_AddSubstringAddressTo(L4_StringItem_t *dest, void *AdditionalSubstringAddress)
{
	size_t there = l4_item_words(dest->raw, 0, ITEM_WORDS);
	size_t last;

	if (there == 0 || there == ITEM_WORDS) {
		spoil_item(dest);
		return dest;
	}
	last = last_descriptor(dest);
	if (item_pointers(dest->raw[last]) == POINTERS) {
		/* a descriptor counts no more of them, so the string goes on with another one */
		L4_StringItem_t next = { { item_length(dest->raw[last]) << 10, pointer_to(AdditionalSubstringAddress) } };
		return L4_AddSubstringTo(dest, next);
	}
	dest->raw[last] += 0x10;
	dest->raw[there] = pointer_to(AdditionalSubstringAddress);
	return dest;
}

void L4_MsgBufferClear(L4_MsgBuffer_t *b)
{
	*b = (L4_MsgBuffer_t) { { ITEM_NONE } };
}

/* Marks buffers that cannot be: one item whose string goes on behind the last register. */
static void spoil_buffers(L4_MsgBuffer_t *b)
{
	if (b->raw[0] != BUFFERS_SPOILT_BY_ITEM)
		b->raw[0] = BUFFERS_SPOILT;
}

void L4_MsgBufferAppendRcvString(L4_MsgBuffer_t *b, const L4_StringItem_t *s)
{
	size_t at = 0, last = 0, words = l4_item_words(s->raw, 0, ITEM_WORDS);
	bool is_first = (b->raw[0] & ITEM_NONE) != 0;

	while (!is_first) {
		size_t there = l4_item_words(b->raw, at, MAX_BUFFER_WORDS);
		if (there == 0) {
			spoil_buffers(b);
			return;
		}
		last = at;
		at += there;
		if (!(b->raw[last] & ITEM_MORE))
			break;
	}
	if (words == 0) {
		b->raw[0] = BUFFERS_SPOILT_BY_ITEM;
		return;
	}
	if (words > MAX_BUFFER_WORDS - at) {
		spoil_buffers(b);
		return;
	}
	if (!is_first)
		b->raw[last] |= ITEM_MORE;
	memcpy(b->raw + at, s->raw, words * sizeof b->raw[0]);
	b->raw[at] &= ~(L4_Word_t) ITEM_MORE;
}

void L4_MsgBufferAppendSimpleRcvString(L4_MsgBuffer_t *b, L4_StringItem_t s)
{
	if (L4_CompoundString(&s))
		b->raw[0] = BUFFERS_SPOILT_BY_ITEM;
	else
		L4_MsgBufferAppendRcvString(b, &s);
}
