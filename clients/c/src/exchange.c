/* The system call ExchangeRegisters. */
#include "internal.h"

/* What ExchangeRegisters answers. */
struct exchanged {
	struct told_moment told;
	L4_ThreadId_t result;
	struct exregr_fields fields;
};

static int read_exchanged(struct thread *thread, L4_ThreadId_t dest, struct exchanged *exchanged)
{
	struct exregr_2_fields fields;
	const unsigned char *bytes;
	bool has_moment = thread->version != 1;
	unsigned kind;
	size_t body;

	if (l4_read_head(thread, &kind, &body) < 0)
		return -1;
	if (kind != (has_moment ? EXREGR_2 : EXREGR))
		return l4_read_refusal(thread, kind, body);
	if (body != (has_moment ? EXREGR_2_BODY : EXREGR_BODY))
		return l4_lose(thread, FOUND_HERE, 'F', F_WRONG_SIZE, 0);
	if (l4_take(thread, has_moment ? EXREGR_2_FIELDS : EXREGR_FIELDS, &bytes) < 0)
		return -1;
	if (has_moment) {
		(void) get_exregr_2(bytes, &fields);
		exchanged->told = (struct told_moment) { true, fields.moment };
	} else {
		(void) get_exregr(bytes, &fields.exregr);
	}
	exchanged->fields = fields.exregr;
	exchanged->result.raw = fields.exregr.result;
	if (fields.exregr.control & ~(L4_Word_t) 0x6 || L4_IsNilThread(exchanged->result) != (fields.exregr.code != 0) ||
	    (fields.exregr.code == 0 && !L4_IsThreadEqual(exchanged->result, dest)))
		return l4_lose(thread, FOUND_HERE, 'C', C_NOT_AN_ANSWER, 0);
	return 0;
}

static int exchange(struct thread *thread, L4_ThreadId_t dest, L4_Word_t control, struct exchanged *exchanged)
{
	const struct exreg_fields fields = { .dest = dest.raw, .control = control };
	unsigned char frame[LENGTH_BYTES + EXREG_BODY];
	struct iovec part = { frame, sizeof frame };
	int status;

	if (thread->is_calling)
		return l4_refuse(thread, FOUND_HERE, 'C', C_CALL_IS_OPEN);
	if (!thread->is_connected)
		return l4_refuse(thread, FOUND_HERE, 'C', C_NOT_CONNECTED);
	if (control & ~(L4_Word_t) 0x6)
		return l4_refuse(thread, FOUND_HERE, 'C', C_LEFT_OUT_CONTROL);
	(void) put_exreg(put_head(frame, EXREG_BODY, EXREG), &fields);
	thread->is_calling = true;
	status = l4_write(thread, &part, 1);
	if (status == 0)
		status = read_exchanged(thread, dest, exchanged);
	thread->is_calling = false;
	return status;
}

static void give_word(L4_Word_t *place, L4_Word_t word)
{
	if (place != NULL)
		*place = word;
}

L4_ThreadId_t L4_ExchangeRegisters(L4_ThreadId_t dest, L4_Word_t control, L4_Word_t sp, L4_Word_t ip, L4_Word_t flags,
				   L4_Word_t UserDefinedHandle, L4_ThreadId_t pager, L4_Word_t *old_control,
				   L4_Word_t *old_sp, L4_Word_t *old_ip, L4_Word_t *old_flags,
				   L4_Word_t *old_UserDefinedHandle, L4_ThreadId_t *old_pager)
{
	struct thread *thread = &l4_thread;
	struct exchanged exchanged = { .result = L4_nilthread };

	thread->last_exchange.is_told = false;
	/* the control bits that would give these a meaning are refused */
	(void) sp, (void) ip, (void) flags, (void) UserDefinedHandle, (void) pager;
	if (exchange(thread, dest, control, &exchanged) < 0) {
		exchanged.result = L4_nilthread;
		exchanged.fields.control = 0;
	} else {
		thread->last_exchange = exchanged.told;
		if (L4_IsNilThread(exchanged.result))
			(void) l4_refuse(thread, FOUND_HERE, 'C', C_NOBODY_THERE);
		thread->error_code = exchanged.fields.code;
	}
	give_word(old_control, exchanged.fields.control);
	give_word(old_sp, 0);
	give_word(old_ip, 0);
	give_word(old_flags, 0);
	give_word(old_UserDefinedHandle, 0);
	if (old_pager != NULL)
		*old_pager = L4_nilthread;
	return exchanged.result;
}
