/* Periods of time. */
#include "internal.h"

#include <l4/schedule.h>

enum {
	MANTISSA = 0x3ff,
	EXPONENTS = 0x1f,
};

/* longer than every period */
static const L4_Word64_t NEVER = UINT64_MAX;

L4_Word64_t l4_microseconds(L4_Time_t time)
{
	if (time.raw == 0)
		return NEVER;
	return (L4_Word64_t) (time.raw & MANTISSA) << (time.raw >> 10 & EXPONENTS);
}

L4_Time_t L4_TimePeriod(L4_Word64_t microseconds)
{
	unsigned exponent = 0;

	if (microseconds == 0)
		return L4_ZeroTime;
	for (; microseconds > MANTISSA; exponent++)
		microseconds = microseconds / 2 + microseconds % 2;
	if (exponent > EXPONENTS)
		return L4_Never;
	return (L4_Time_t) { (L4_Word16_t) (exponent << 10 | microseconds) };
}

static L4_Time_t sum(L4_Word64_t l, L4_Word64_t r)
{
	/* NEVER itself is too long for a period, and so is what would not fit the word */
	return L4_TimePeriod(l > NEVER - r ? NEVER : l + r);
}

static L4_Time_t difference(L4_Word64_t l, L4_Word64_t r)
{
	if (l == NEVER)
		return L4_Never;
	return L4_TimePeriod(l > r ? l - r : 0);
}

L4_Time_t L4_TimeAddWord(L4_Time_t l, L4_Word_t r)
{
	return sum(l4_microseconds(l), r);
}

L4_Time_t *L4_TimeAddWordTo(L4_Time_t *l, L4_Word_t r)
{
	*l = L4_TimeAddWord(*l, r);
	return l;
}

L4_Time_t L4_TimeSubWord(L4_Time_t l, L4_Word_t r)
{
	return difference(l4_microseconds(l), r);
}

L4_Time_t *L4_TimeSubWordFrom(L4_Time_t *l, L4_Word_t r)
{
	*l = L4_TimeSubWord(*l, r);
	return l;
}

L4_Time_t L4_TimeAdd(L4_Time_t l, L4_Time_t r)
{
	return sum(l4_microseconds(l), l4_microseconds(r));
}

L4_Time_t *L4_TimeAddTo(L4_Time_t *l, L4_Time_t r)
{
	*l = L4_TimeAdd(*l, r);
	return l;
}

L4_Time_t L4_TimeSub(L4_Time_t l, L4_Time_t r)
{
	return difference(l4_microseconds(l), l4_microseconds(r));
}

L4_Time_t *L4_TimeSubFrom(L4_Time_t *l, L4_Time_t r)
{
	*l = L4_TimeSub(*l, r);
	return l;
}

L4_Bool_t L4_IsTimeLonger(L4_Time_t l, L4_Time_t r)
{
	return l4_microseconds(l) > l4_microseconds(r);
}

L4_Bool_t L4_IsTimeLongerOrEqual(L4_Time_t l, L4_Time_t r)
{
	return l4_microseconds(l) >= l4_microseconds(r);
}

L4_Bool_t L4_IsTimeShorter(L4_Time_t l, L4_Time_t r)
{
	return l4_microseconds(l) < l4_microseconds(r);
}

L4_Bool_t L4_IsTimeShorterOrEqual(L4_Time_t l, L4_Time_t r)
{
	return l4_microseconds(l) <= l4_microseconds(r);
}

L4_Bool_t L4_IsTimeEqual(L4_Time_t l, L4_Time_t r)
{
	return l4_microseconds(l) == l4_microseconds(r);
}

L4_Bool_t L4_IsTimeNotEqual(L4_Time_t l, L4_Time_t r)
{
	return l4_microseconds(l) != l4_microseconds(r);
}
