/* The request of an Ipc: its frame is made of the registers, and sent. */
#include "internal.h"

enum {
	TIME_POINT = 0x8000,
	/* a fault that the library has a number for, and no server: class C */
	OF_LIBRARY = 0x100,
};

/* An IPC frame while it is made. */
struct request {
	unsigned char *at;
	/* the head with its words, and then each substring where it lies */
	struct iovec parts[1 + MAX_MESSAGE_WORDS];
	size_t count;
	size_t payload;
	unsigned char head[LENGTH_BYTES + IPC_BODY + 8 * (MAX_MESSAGE_WORDS + MAX_BUFFER_WORDS)];
};

/* Whether there may be so many bytes of a string at a pointer. Of other memory that is not there the system tells. */
static bool is_no_null(const void *memory, L4_Word_t length)
{
	return memory != NULL || length == 0;
}

/* Whether each substring of these items is there, by what looks at one. */
static bool are_there(const L4_Word_t *words, size_t count, bool (*is_there)(const void *memory, L4_Word_t length))
{
	for (size_t at = 0; at < count;) {
		L4_Word_t descriptor = words[at++];

		for (L4_Word_t left = item_pointers(descriptor); left > 0; left--)
			if (!is_there(memory_at(words[at++]), item_length(descriptor)))
				return false;
	}
	return true;
}

/* One substring: its offset goes into the frame, its bytes are gathered when the frame is sent. -1 where the strings
 * are too long together. */
static int put_substring(struct request *request, L4_Word_t length, L4_Word_t pointer)
{
	if (length > MAX_STRING_BYTES - request->payload)
		return -1;
	request->at = put_word(request->at, request->payload);
	if (length > 0)
		request->parts[request->count++] = (struct iovec) { memory_at(pointer), (size_t) length };
	request->payload += (size_t) length;
	return 0;
}

/* The typed words, with offsets into the payload in place of pointers. The number of the fault, 0 for none. */
static unsigned put_items(struct request *request, const L4_Word_t *words, size_t count)
{
	bool goes_on = false;

	for (size_t at = 0; at < count;) {
		L4_Word_t descriptor = words[at++];

		if (descriptor & ITEM_NONE)
			return F_RESERVED_BIT;
		if (item_pointers(descriptor) > count - at)
			return F_PAST_WORDS;
		request->at = put_word(request->at, descriptor);
		for (L4_Word_t left = item_pointers(descriptor); left > 0; left--)
			if (put_substring(request, item_length(descriptor), words[at++]) < 0)
				return F_TOO_MANY_BYTES;
		goes_on = (descriptor & ITEM_GOES_ON) != 0;
	}
	if (goes_on)
		return F_PAST_WORDS;
	return are_there(words, count, is_no_null) ? 0 : OF_LIBRARY | C_NO_MEMORY_THERE;
}

/* The fault of an item that is none or runs past its words: that of its first descriptor at fault. */
static unsigned fault_of_item(const L4_Word_t *words, size_t at, size_t limit)
{
	while (at < limit && !(words[at] & ITEM_NONE) && item_pointers(words[at]) < limit - at)
		at += 1 + item_pointers(words[at]);
	return at < limit && words[at] & ITEM_NONE ? F_RESERVED_BIT : F_PAST_WORDS;
}

/* How many of BR1 on are buffers: as far as C says that another one follows. The number of the fault, 0 for none. */
static unsigned count_buffers(const L4_Word_t *br, size_t *count)
{
	const L4_Word_t *words = br + 1;
	bool follows = (br[0] & 1) != 0 && !(words[0] & ITEM_NONE);

	*count = 0;
	if (follows && words[0] == BUFFERS_SPOILT_BY_ITEM)
		return OF_LIBRARY | C_NO_ITEM;
	while (follows) {
		size_t item = l4_item_words(words, *count, MAX_BUFFER_WORDS);

		if (item == 0)
			return fault_of_item(words, *count, MAX_BUFFER_WORDS);
		follows = (words[*count] & ITEM_MORE) != 0;
		*count += item;
	}
	return are_there(words, *count, l4_can_write) ? 0 : OF_LIBRARY | C_NO_MEMORY_THERE;
}

static bool has_time_point(const struct phases *phases, L4_Word_t timeouts)
{
	return timeouts >> 32 != 0 || (phases->sends && timeouts >> 16 & TIME_POINT) ||
	       (phases->receives && timeouts & TIME_POINT);
}

/* The timeouts of the phases that are there. */
static uint32_t timeouts_of(const struct phases *phases, L4_Word_t timeouts)
{
	return (uint32_t) ((phases->sends ? timeouts & 0xffff0000 : 0) | (phases->receives ? timeouts & 0xffff : 0));
}

static L4_Word_t tag_of(const struct thread *thread, const struct phases *phases)
{
	const L4_Word_t only_received = TAG_REDIRECTED | TAG_CROSSED | TAG_FAILED;

	return phases->sends ? thread->mr[0] & ~only_received : 0;
}

/* The fields of the frame. Its length is put when it is known. */
static void put_fields(struct request *request, const struct thread *thread, const struct phases *phases, L4_Word_t timeouts)
{
	L4_Word_t tag = tag_of(thread, phases);
	const struct ipc_fields fields = {
		.to = phases->to.raw,
		.from_specifier = phases->from.raw,
		.timeouts = timeouts_of(phases, timeouts),
		.originator = tag & TAG_PROPAGATED ? thread->virtual_sender.raw : L4_nilthread.raw,
		.tag = tag,
		.acceptor = phases->receives ? thread->br[0] & 1 : 0,
		.buffer_words = (uint8_t) phases->buffer_words,
	};

	request->at = put_ipc(put_head(request->head, 0, IPC), &fields);
}

/* The words of the message and of the buffers. The number of the fault, 0 for none. */
static unsigned put_words(struct request *request, const struct thread *thread, const struct phases *phases)
{
	L4_Word_t tag = tag_of(thread, phases);
	size_t untyped = tag & 0x3f, typed = tag >> 6 & 0x3f;
	unsigned fault;

	if ((tag & TAG_SPOILT) == TAG_SPOILT_BY_ITEM)
		return OF_LIBRARY | C_NO_ITEM;
	if (untyped + typed > MAX_MESSAGE_WORDS)
		return F_TOO_MANY_WORDS;
	for (size_t i = 0; i < untyped; i++)
		request->at = put_word(request->at, thread->mr[1 + i]);
	fault = put_items(request, thread->mr + 1 + untyped, typed);
	for (size_t i = 0; i < phases->buffer_words; i++)
		request->at = put_word(request->at, thread->br[1 + i]);
	return fault;
}

/* Nothing is sent of a call that the server would find at fault, since it would end the thread for it. */
int l4_ask(struct thread *thread, struct phases *phases, L4_Word_t timeouts)
{
	struct request request;
	unsigned fault = 0;

	if (has_time_point(phases, timeouts))
		fault = F_TIME_POINT;
	if (fault == 0 && phases->receives)
		fault = count_buffers(thread->br, &phases->buffer_words);
	if (fault == 0) {
		request.count = 1;
		request.payload = 0;
		put_fields(&request, thread, phases, timeouts);
		fault = put_words(&request, thread, phases);
	}
	if (fault != 0)
		return l4_refuse(thread, FOUND_HERE, fault & OF_LIBRARY ? 'C' : 'F', fault & 0xff);
	request.parts[0] = (struct iovec) { request.head, (size_t) (request.at - request.head) };
	(void) put_half(request.head, (uint32_t) (request.parts[0].iov_len - LENGTH_BYTES + request.payload));
	return l4_write(thread, request.parts, request.count);
}
