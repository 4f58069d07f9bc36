/* SetThreadpoolWait with NULL, and anew while it is armed and while a callback is pending. One thread.
   The machine: the old arming ends, and callbacks that are pending stay. */
#include "probe.h"

int main(void)
{
    TP_CALLBACK_ENVIRON env;
    HANDLE one = CreateEvent(NULL, FALSE, FALSE, NULL), two = CreateEvent(NULL, FALSE, FALSE, NULL);
    FILETIME soon = in_ms(50);
    PTP_WAIT wait;
    begin();
    make_pool(&env, 1);
    wait = CreateThreadpoolWait(pass_wait, "the wait object", &env);
    SetThreadpoolWait(wait, one, NULL);
    SetThreadpoolWait(wait, NULL, &soon);
    SetEvent(one);
    Sleep(200);
    printf("NULL: %ld ran; the event is signalled: %s\n", over, now(one));
    SetThreadpoolWait(wait, one, NULL);
    SetThreadpoolWait(wait, two, NULL);
    SetEvent(one);
    Sleep(200);
    printf("anew: %ld ran\n", over);
    SubmitThreadpoolWork(CreateThreadpoolWork(hold_work, "block", &env));
    reach(&begun, 1);
    SetEvent(two);
    Sleep(100);
    SetThreadpoolWait(wait, two, NULL);
    Sleep(100);
    SetEvent(two);
    Sleep(100);
    let(1);
    printf("anew while one is pending: %ld ran\n", reach(&over, 3) - 1);
    return end();
}
