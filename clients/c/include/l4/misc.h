/* A header of the manual of which nothing is there: MemoryControl, ProcessorControl. A program that includes it and
 * needs nothing of it compiles. */
#ifndef L4_MISC_H
#define L4_MISC_H

#include <l4/types.h>

#endif
