/* CloseThreadpoolWait: with a callback pending, and while it is armed. One thread, blocked.
   The machine:  later, and the pending one runs;  freed, and the event keeps its signal */
#include "probe.h"

int main(void)
{
    TP_CALLBACK_ENVIRON env;
    HANDLE one = CreateEvent(NULL, FALSE, FALSE, NULL), two = CreateEvent(NULL, FALSE, FALSE, NULL);
    PTP_WAIT pending, armed;
    begin();
    make_pool(&env, 1);
    SubmitThreadpoolWork(CreateThreadpoolWork(hold_work, "block", &env));
    reach(&begun, 1);
    pending = CreateThreadpoolWait(pass_wait, "the one that was pending", &env);
    armed = CreateThreadpoolWait(pass_wait, "the one that was armed", &env);
    SetThreadpoolWait(pending, one, NULL);
    SetThreadpoolWait(armed, two, NULL);
    Sleep(100);
    SetEvent(one);
    Sleep(100);
    CloseThreadpoolWait(pending);
    CloseThreadpoolWait(armed);
    SetEvent(two);
    let(1);
    printf("%ld ran; the second event is signalled: %s\n", reach(&over, 3) - 1, now(two));
    return end();
}
