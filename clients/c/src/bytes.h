/* Numbers as bytes of a frame. */
#ifndef L4_BYTES_H
#define L4_BYTES_H

#include <l4/types.h>

#include <stdint.h>
#include <string.h>

/* Numbers stand with the most significant byte first; what puts one answers the byte behind it. */

static inline uint32_t half_in_order(uint32_t half)
{
#if __BYTE_ORDER__ == __ORDER_BIG_ENDIAN__
	return half;
#else
	return __builtin_bswap32(half);
#endif
}

static inline uint64_t word_in_order(uint64_t word)
{
#if __BYTE_ORDER__ == __ORDER_BIG_ENDIAN__
	return word;
#else
	return __builtin_bswap64(word);
#endif
}

static inline unsigned char *put_byte(unsigned char *at, unsigned value)
{
	*at = (unsigned char) value;
	return at + 1;
}

static inline unsigned char *put_two(unsigned char *at, unsigned value)
{
	at[0] = (unsigned char) (value >> 8);
	at[1] = (unsigned char) value;
	return at + 2;
}

static inline unsigned char *put_half(unsigned char *at, uint32_t value)
{
	value = half_in_order(value);
	memcpy(at, &value, sizeof value);
	return at + sizeof value;
}

static inline unsigned char *put_word(unsigned char *at, L4_Word_t value)
{
	uint64_t word = word_in_order(value);

	memcpy(at, &word, sizeof word);
	return at + sizeof word;
}

static inline uint8_t get_byte(const unsigned char *at)
{
	return *at;
}

static inline uint32_t get_half(const unsigned char *at)
{
	uint32_t half;

	memcpy(&half, at, sizeof half);
	return half_in_order(half);
}

static inline L4_Word_t get_word(const unsigned char *at)
{
	uint64_t word;

	memcpy(&word, at, sizeof word);
	return word_in_order(word);
}

#endif
