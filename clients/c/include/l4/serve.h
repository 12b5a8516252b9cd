/* A server's loop: it waits, has each request answered by a function, and goes on whatever its clients do. */
#ifndef L4_SERVE_H
#define L4_SERVE_H

#include <l4/types.h>

L4_BEGIN_C_

/* Answers a request: its words stand in the message registers, its strings in the buffers that were accepted before
 * l4_serve. True where the message registers have the answer now; false where none goes to the asker now. The answer is
 * propagated only where the function calls L4_Set_VirtualSender: the flag p of a request that was loaded back is dropped.
 * Calls of other threads, l4_disconnect and L4_Accept may be made in it. */
typedef L4_Bool_t (*l4_answer_t)(L4_ThreadId_t from, L4_MsgTag_t tag, void *data);

/* The label of the empty message that an asker gets in place of an answer that cannot be sent, as one with a string that is
 * not there: 2^48 - 1. */
#define L4_FUNCTION_FAILED ((L4_Word_t) 0xffffffffffff)

/* Is told what failed, l4_error() says why: the answer to this thread did not go over, or where it is L4_nilthread a request
 * did not come whole, as one with a string that the buffers did not take, or a name was not registered again. Of an answer
 * that cannot be sent it is told before the thread gets L4_FUNCTION_FAILED in its place. */
typedef void (*l4_trouble_t)(L4_ThreadId_t to, void *data);

/* Serves until the connection is lost, as where the server l4d ends: -1 with errno, l4_error() says why. 0 where the
 * functions called l4_disconnect. Answers go with send timeout zero, so a client that does not wait gets none, and is told
 * of as trouble. What has the label L4_FUNCTION_FAILED is left out. A message that may answer one of the thread's last 16 calls
 * that were given up once they were delivered is told as trouble, and gets that label. After 4,000 answers a few milliseconds
 * pass before the next message is waited for, so that servers that answer each other's answers end that. Where trouble is null a line on standard error tells it; of trouble of one kind a line a second, and how
 * much was left out. The first 8 names that the thread got by
 * l4_register are registered again every five seconds, so that a name server that was started again knows them; where that
 * fails it is tried again each second, and told of once. A receive that can never be made (buffers that
 * are spoilt) ends it too, with -1; one that the server has no room for is tried again, ten times a second. Where answer is
 * null it is -1 with EFAULT at once. */
int l4_serve(l4_answer_t answer, l4_trouble_t trouble, void *data);

L4_END_C_

#endif
