/* A header of the manual of which nothing is there: fpages, Unmap, SpaceControl. A program that includes it and
 * needs nothing of it compiles. */
#ifndef L4_SPACE_H
#define L4_SPACE_H

#include <l4/types.h>

#endif
