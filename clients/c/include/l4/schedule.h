/* Time: the periods of the two timeouts of a call. Time points are not there. */
#ifndef L4_SCHEDULE_H
#define L4_SCHEDULE_H

#include <l4/types.h>

L4_BEGIN_C_

#define L4_Never L4_MADE_(L4_Time_t, 0)
#define L4_ZeroTime L4_MADE_(L4_Time_t, 0x400)

/* The shortest period that is not shorter than so many microseconds; L4_Never where no period is so long, which is
 * above 2,196,875,771,904. */
L4_Time_t L4_TimePeriod(L4_Word64_t microseconds);

/* Sums and differences are those of the microseconds, made a period again as L4_TimePeriod does. Never plus or minus
 * anything is never; what would be less than nothing is L4_ZeroTime, as is anything minus never. */
L4_Time_t L4_TimeAddWord(L4_Time_t l, L4_Word_t r);
L4_Time_t *L4_TimeAddWordTo(L4_Time_t *l, L4_Word_t r);
L4_Time_t L4_TimeSubWord(L4_Time_t l, L4_Word_t r);
L4_Time_t *L4_TimeSubWordFrom(L4_Time_t *l, L4_Word_t r);
L4_Time_t L4_TimeAdd(L4_Time_t l, L4_Time_t r);
L4_Time_t *L4_TimeAddTo(L4_Time_t *l, L4_Time_t r);
L4_Time_t L4_TimeSub(L4_Time_t l, L4_Time_t r);
L4_Time_t *L4_TimeSubFrom(L4_Time_t *l, L4_Time_t r);

/* Comparisons are those of what the periods are worth: 1 with e = 1 equals 2 with e = 0, and never is longest. */
L4_Bool_t L4_IsTimeLonger(L4_Time_t l, L4_Time_t r);
L4_Bool_t L4_IsTimeLongerOrEqual(L4_Time_t l, L4_Time_t r);
L4_Bool_t L4_IsTimeShorter(L4_Time_t l, L4_Time_t r);
L4_Bool_t L4_IsTimeShorterOrEqual(L4_Time_t l, L4_Time_t r);
L4_Bool_t L4_IsTimeEqual(L4_Time_t l, L4_Time_t r);
L4_Bool_t L4_IsTimeNotEqual(L4_Time_t l, L4_Time_t r);

L4_END_C_

#endif
