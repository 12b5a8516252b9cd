/* Words, and the types that are one word. */
#ifndef L4_TYPES_H
#define L4_TYPES_H

#include <stdbool.h>
#include <stdint.h>

/* A value of a type of one member, in C and in C++; and what stands around declarations for both. */
#ifdef __cplusplus
#define L4_MADE_(type, value) (type { value })
#define L4_BEGIN_C_ extern "C" {
#define L4_END_C_ }
#else
#define L4_MADE_(type, value) ((type) { value })
#define L4_BEGIN_C_
#define L4_END_C_
#endif

L4_BEGIN_C_

typedef uint8_t L4_Word8_t;
typedef uint16_t L4_Word16_t;
typedef uint32_t L4_Word32_t;
typedef uint64_t L4_Word64_t;
/* Words have 64 bits, whatever the machine. */
typedef uint64_t L4_Word_t;
typedef bool L4_Bool_t;

/* A global id has the thread number in bits 32 to 63 and the version in bits 0 to 31, whose low six bits are not all zero. */
typedef struct {
	L4_Word_t raw;
} L4_ThreadId_t;

/* A period: bit 15 is 0, e in bits 10 to 14, m in bits 0 to 9, worth 2^e * m microseconds. */
typedef struct {
	L4_Word16_t raw;
} L4_Time_t;

/* MR0: u in bits 0 to 5, t in bits 6 to 11, p, r, X and E in bits 12 to 15, the label from bit 16 on. */
typedef struct {
	L4_Word_t raw;
} L4_MsgTag_t;

/* BR0: bit 0 says that string items are accepted. */
typedef struct {
	L4_Word_t raw;
} L4_Acceptor_t;

L4_END_C_

#endif
