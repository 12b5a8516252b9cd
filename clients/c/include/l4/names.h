/* The name server of docs/NAMES.md: which thread has a name now. A server that ended and came again has another id, and
 * the same name. These calls are Ipc with thread 255, so they change L4_ErrorCode as L4_Call does. The message and buffer
 * registers and VirtualSender stay: a message that is loaded can be sent to who was looked up. */
#ifndef L4_NAMES_H
#define L4_NAMES_H

#include <l4/types.h>

L4_BEGIN_C_

/* The bytes of the longest name. Names are printable ASCII without the space. */
enum { L4_NAME_BYTES = 64 };

/* From now on the name is that of the calling thread, until that ends. 0, or -1 with errno: EINVAL for what is no name, as a
 * null pointer, EADDRINUSE where another live thread has it, ENOSPC, ENOMEM, ESRCH where there is no name server, EIO where
 * the call of it failed, or that of a lost connection. */
int l4_register(const char *name);

/* The same, asked again for so long as there is no name server, or it does not answer; errno is ETIMEDOUT where it did not
 * answer the last time. */
int l4_register_wait(const char *name, L4_Time_t patience);

/* The live thread that has the name; L4_nilthread with errno ENOENT where there is none, or as l4_register has it. Look with
 * L4_IsNilThread before you call it: L4_Call and L4_Send leave a phase with L4_nilthread out, so they succeed. */
L4_ThreadId_t l4_lookup(const char *name);

/* The same, asked again for so long as no live thread has the name, or there is no name server, or it does not answer; errno is
 * that of the last time. Where it did not answer then, that is ENOENT if it had answered before that no live thread has the name,
 * else ETIMEDOUT. */
L4_ThreadId_t l4_lookup_wait(const char *name, L4_Time_t patience);

/* The first name behind `after`, in the order of bytes, and its thread; from "" on, all of them one by one. 1, or 0
 * where there is no further one, or -1 with errno as l4_register has it, or EFAULT where name or thread is null. name ends
 * with a zero byte. */
int l4_list(const char *after, char name[L4_NAME_BYTES + 1], L4_ThreadId_t *thread);

/* Asks this thread as name server, in place of the first live one of 255.1 to 255.63. L4_nilthread: that one again. */
void l4_use_name_server(L4_ThreadId_t server);

L4_END_C_

#endif
