/* A header of the manual of which nothing is there: KernelInterface, the kernel interface page. A program that includes it and
 * needs nothing of it compiles. */
#ifndef L4_KIP_H
#define L4_KIP_H

#include <l4/types.h>

#endif
