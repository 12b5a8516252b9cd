/* All of the interface: L4 X.2 IPC for ordinary processes, under the manual's names.
 *
 * A process calls l4_connect once in each of its threads that shall be an L4 thread; from then on the calls of the
 * manual mean what the manual says, within the profile of docs/PROFILE.md. */
#ifndef L4_H
#define L4_H

#include <l4/ipc.h>
#include <l4/message.h>
#include <l4/names.h>
#include <l4/schedule.h>
#include <l4/serve.h>
#include <l4/thread.h>
#include <l4/types.h>

#endif
