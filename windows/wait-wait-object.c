/* WaitForThreadpoolWaitCallbacks: an armed object, and a pending callback.
   The machine:  begun 0 0, it stays armed;  with TRUE begun 0 1, and what it took isn't given back */
#include "probe.h"

int main(void)
{
    TP_CALLBACK_ENVIRON env;
    HANDLE event = CreateEvent(NULL, FALSE, FALSE, NULL);
    PTP_WAIT wait;
    begin();
    make_pool(&env, 1);
    wait = CreateThreadpoolWait(pass_wait, "the wait object", &env);
    SetThreadpoolWait(wait, event, NULL);
    WaitForThreadpoolWaitCallbacks(wait, FALSE);
    WaitForThreadpoolWaitCallbacks(wait, TRUE);
    puts("both waits are back while it is armed");
    SetEvent(event);
    printf("%ld ran for the event\n", reach(&over, 1));

    SubmitThreadpoolWork(CreateThreadpoolWork(hold_work, "block", &env));
    reach(&begun, 2);
    SetThreadpoolWait(wait, event, NULL);
    SetEvent(event);
    Sleep(200);
    WaitForThreadpoolWaitCallbacks(wait, TRUE);
    let(1);
    reach(&over, 3);
    printf("behind a wait with TRUE %ld ran; the event is signalled: %s\n", over - 2, now(event));
    return end();
}
