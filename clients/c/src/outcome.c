/* The outcome of an Ipc: words go to the registers, strings to the buffers. */
#include "internal.h"

/* What an outcome says before its words. */
struct outcome {
	struct told told;
	struct ipcr_fields fields;
	L4_ThreadId_t sender;
	size_t untyped;
	size_t typed;
	/* bytes of the body behind the words and the number of pieces */
	size_t rest;
	unsigned pieces;
};

/* Reads the fields of an IPCR: the words that its version tells of the call, and those that all versions tell. */
static void read_fields(const unsigned char *bytes, size_t told, struct outcome *outcome)
{
	outcome->told.count = told;
	for (size_t i = 0; i < told; i++, bytes += 8)
		outcome->told.numbers[i] = get_word(bytes);
	(void) get_ipcr(bytes, &outcome->fields);
	outcome->sender.raw = outcome->fields.sender;
	outcome->untyped = outcome->fields.tag & 0x3f;
	outcome->typed = outcome->fields.tag >> 6 & 0x3f;
}

/* Reads an IPCR frame up to its pieces; its words go to the message registers. */
static int read_outcome(struct thread *thread, struct outcome *outcome)
{
	struct outcome_form form = outcome_form(thread->version);
	const unsigned char *bytes;
	size_t body, words;
	unsigned kind;

	if (l4_read_head(thread, &kind, &body) < 0)
		return -1;
	if (kind != form.kind)
		return l4_read_refusal(thread, kind, body);
	if (body < form.body)
		return l4_lose(thread, FOUND_HERE, 'F', F_WRONG_SIZE, 0);
	if (l4_take(thread, form.fields, &bytes) < 0)
		return -1;
	read_fields(bytes, form.told, outcome);
	words = outcome->untyped + outcome->typed;
	if (words > MAX_MESSAGE_WORDS)
		return l4_lose(thread, FOUND_HERE, 'F', F_TOO_MANY_WORDS, 0);
	if (body < form.body + 8 * words)
		return l4_lose(thread, FOUND_HERE, 'F', F_WRONG_SIZE, 0);
	if (l4_take(thread, 8 * words + 1, &bytes) < 0)
		return -1;
	for (size_t i = 0; i < words; i++, bytes += 8)
		thread->mr[1 + i] = get_word(bytes);
	outcome->pieces = *bytes;
	outcome->rest = body - form.body - 8 * words;
	return 0;
}

/* Whether this can be the outcome of a call with these phases, but for its strings. */
static bool is_outcome(const struct phases *phases, const struct outcome *outcome)
{
	const struct ipcr_fields *fields = &outcome->fields;

	if (fields->tag & TAG_FAILED)
		return fields->tag == TAG_FAILED && (fields->error >> 1 & 7) != 0 && L4_IsNilThread(outcome->sender);
	if (fields->error != 0 || fields->tag & (TAG_REDIRECTED | TAG_CROSSED))
		return false;
	return phases->receives || (fields->tag == 0 && L4_IsNilThread(outcome->sender));
}

/* Where the bytes of the strings belong: a place for each piece. */
struct places {
	struct iovec at[MAX_BUFFER_WORDS];
	size_t count;
	size_t bytes;
};

/* The places of one string in the buffer string whose words these are. False where it is longer. */
static bool place_string(struct places *places, const L4_Word_t *words, size_t count, L4_Word_t length)
{
	for (size_t at = 0; at < count;) {
		L4_Word_t descriptor = words[at++];

		for (L4_Word_t left = item_pointers(descriptor); left > 0; left--, at++) {
			L4_Word_t part = item_length(descriptor) < length ? item_length(descriptor) : length;

			if (part == 0)
				continue;
			places->at[places->count++] = (struct iovec) { memory_at(words[at]), (size_t) part };
			places->bytes += (size_t) part;
			length -= part;
		}
	}
	return length == 0;
}

/* The k-th string goes to the k-th buffer string, as its item says: a simple item of its length, with the first pointer
 * of its buffer string. False where the items do not fit the buffers. */
static bool place_strings(const struct thread *thread, const struct phases *phases, const struct outcome *outcome,
			  struct places *places)
{
	const L4_Word_t *items = thread->mr + 1 + outcome->untyped;
	const L4_Word_t *buffers = thread->br + 1;
	size_t at = 0;

	places->count = 0;
	places->bytes = 0;
	if (outcome->typed % 2 != 0)
		return false;
	for (size_t i = 0; i < outcome->typed; i += 2) {
		size_t words = at < phases->buffer_words ? l4_item_words(buffers, at, phases->buffer_words) : 0;

		if (words == 0 || items[i] & 0x3ff || items[i + 1] != buffers[at + 1] ||
		    item_length(items[i]) > MAX_STRING_BYTES)
			return false;
		if (!place_string(places, buffers + at, words, item_length(items[i])))
			return false;
		at += words;
	}
	return true;
}

/* Reads the pieces, each to its place: nothing is written anywhere else, whatever the pieces say. */
static int read_pieces(struct thread *thread, const struct outcome *outcome, const struct places *places)
{
	struct piece_fields piece;
	const unsigned char *bytes;

	if (outcome->pieces != places->count)
		return l4_lose(thread, FOUND_HERE, 'C', C_NOT_AN_ANSWER, 0);
	if (outcome->rest != PIECE_FIELDS * places->count + places->bytes)
		return l4_lose(thread, FOUND_HERE, 'F', F_WRONG_SIZE, 0);
	for (size_t i = 0; i < places->count; i++) {
		const struct iovec *place = &places->at[i];

		if (l4_take(thread, PIECE_FIELDS, &bytes) < 0)
			return -1;
		(void) get_piece(bytes, &piece);
		if (piece.pointer != pointer_to(place->iov_base) || piece.length != place->iov_len)
			return l4_lose(thread, FOUND_HERE, 'C', C_NOT_AN_ANSWER, 0);
		if (l4_take_to(thread, place->iov_base, place->iov_len) < 0)
			return -1;
	}
	return 0;
}

/* Tells an outcome that is an error: of which phases, and of which string that did not fit. */
static int tell_outcome(struct thread *thread, const struct phases *phases, L4_Word_t code)
{
	size_t untyped = thread->mr[0] & 0x3f, typed = thread->mr[0] >> 6 & 0x3f;

	if (code & 1)
		return l4_tell_outcome(thread, code, phases, 0);
	/* the message stands in its registers still */
	return l4_tell_outcome(thread, code, phases, l4_string_at(thread->mr + 1 + untyped, typed, code >> 4));
}

int l4_hear(struct thread *thread, const struct phases *phases, L4_ThreadId_t *from)
{
	struct outcome outcome = { 0 };
	struct places places;

	if (read_outcome(thread, &outcome) < 0)
		return -1;
	if (!is_outcome(phases, &outcome) || !place_strings(thread, phases, &outcome, &places))
		return l4_lose(thread, FOUND_HERE, 'C', C_NOT_AN_ANSWER, 0);
	if (read_pieces(thread, &outcome, &places) < 0)
		return -1;
	thread->last_call = outcome.told;
	if (outcome.fields.tag & TAG_FAILED)
		return tell_outcome(thread, phases, outcome.fields.error);
	thread->mr[0] = outcome.fields.tag;
	thread->error_code = 0;
	if (phases->receives)
		thread->virtual_sender.raw = outcome.fields.actual_sender;
	if (from != NULL)
		*from = outcome.sender;
	return 0;
}
