/* What the examples share: an end with a message, the thread that a word names, and a server's loop. */
#ifndef COMMON_H
#define COMMON_H

#include <l4.h>

#include <stdio.h>
#include <stdlib.h>

/* Ends the program, and says what failed and why. */
static inline void fail(const char *what)
{
	fprintf(stderr, "%s: %s\n", what, l4_error());
	exit(1);
}

static inline void connect_as(const char *dir, unsigned number)
{
	if (l4_connect(dir, 1, number) < 0)
		fail("l4_connect");
}

/* An id such as 1.1, or else a name that the name server knows. */
static inline L4_ThreadId_t thread_of(const char *word)
{
	unsigned long number, version;
	L4_ThreadId_t thread;
	char end;

	if (sscanf(word, "%lu.%lu%c", &number, &version, &end) == 2)
		return L4_GlobalId(number, version);
	thread = l4_lookup(word);
	if (L4_IsNilThread(thread))
		fail(word);
	return thread;
}

/* A server is found by its name where it is registered, and else by its id, which it prints. */
static inline void announce(const char *name)
{
	const char *how = l4_register(name) == 0 ? "registered" : l4_error();

	printf("%s is %llu.%llu (%s)\n", name, (unsigned long long) L4_ThreadNo(L4_Myself()),
	       (unsigned long long) L4_Version(L4_Myself()), how);
	fflush(stdout);
}

/* A server: says who it is, and answers requests by this function until the connection ends. */
static inline void serve(const char *name, l4_answer_t answer, void *data)
{
	announce(name);
	if (l4_serve(answer, NULL, data) < 0)
		fail(name);
}

#endif
