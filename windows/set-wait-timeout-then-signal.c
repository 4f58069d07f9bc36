/* A wait object times out, is set anew and signalled before any callback could run. One thread, blocked.
   The machine:  timeout, then object: each callback keeps its own result */
#include "probe.h"

int main(void)
{
    TP_CALLBACK_ENVIRON env;
    HANDLE event = CreateEvent(NULL, FALSE, FALSE, NULL);
    FILETIME soon = in_ms(50);
    PTP_WAIT wait;
    begin();
    make_pool(&env, 1);
    SubmitThreadpoolWork(CreateThreadpoolWork(hold_work, "block", &env));
    reach(&begun, 1);
    wait = CreateThreadpoolWait(pass_wait, "the wait object", &env);
    SetThreadpoolWait(wait, event, &soon);
    Sleep(200);
    SetThreadpoolWait(wait, event, NULL);
    Sleep(100);
    SetEvent(event);
    Sleep(100);
    let(1);
    reach(&over, 3);
    return end();
}
