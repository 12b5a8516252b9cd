/* Calls a server again and again: long_life DIR CALLS. Each is answered as the first one was, whatever the server has let go of since. Prints
 * how many calls there were. */
#include <l4.h>

#include <stdio.h>
#include <stdlib.h>

static void want(bool holds, const char *what)
{
	if (holds)
		return;
	fprintf(stderr, "long_life: %s: %s\n", what, l4_error());
	exit(1);
}

int main(int argc, char **argv)
{
	L4_ThreadId_t nobody = L4_GlobalId(200, 1);
	long calls = 0, most;

	if (argc != 3 || (most = atol(argv[2])) <= 0)
		return 2;
	want(l4_connect(argv[1], 1, 1) == 0, "connect");
	while (calls < most) {
		L4_Set_MsgTag(L4_Niltag);
		want(L4_IpcFailed(L4_Send(nobody)) && L4_ErrorCode() == 0x4, "a send to a thread that is not there");
		calls++;
	}
	want(!L4_IsNilThread(L4_Myself()), "the thread is still there");
	l4_disconnect();
	want(l4_connect(argv[1], 1, 2) == 0, "another thread");
	printf("%ld\n", calls);
	return 0;
}
