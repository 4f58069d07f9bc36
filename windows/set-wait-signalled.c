/* SetThreadpoolWait on an event that is signalled, and at once a thread that waits for it, 20
   times; then at once a submit, with one thread.
   The machine: taken in the call, so the thread has to wait, and the wait's callback comes first. */
#include "probe.h"

int main(void)
{
    TP_CALLBACK_ENVIRON env;
    HANDLE event = CreateEvent(NULL, FALSE, FALSE, NULL);
    PTP_WAIT wait;
    PTP_WORK work;
    int tries, had = 0;
    begin();
    make_pool(&env, 1);
    wait = CreateThreadpoolWait(pass_wait, "the wait object", &env);
    work = CreateThreadpoolWork(pass_work, "the work", &env);
    for (tries = 0; tries < 20; tries++) {
        SetEvent(event);
        SetThreadpoolWait(wait, event, NULL);
        had += WaitForSingleObject(event, 0) == WAIT_OBJECT_0;
        Sleep(20);
        SetThreadpoolWait(wait, NULL, NULL);
    }
    printf("the thread had the event %d times of 20\n", had);
    SetEvent(event);
    SetThreadpoolWait(wait, event, NULL);
    SubmitThreadpoolWork(work);
    Sleep(300);
    return end();
}
