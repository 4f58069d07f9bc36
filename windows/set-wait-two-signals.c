/* Two wait objects on one event, which is set twice; then at once a thread that asks for it. 100 times.
   The machine: the two wait objects have both signals. */
#include "probe.h"

static void CALLBACK counts(PTP_CALLBACK_INSTANCE i, void *name, PTP_WAIT w, TP_WAIT_RESULT result)
{
    InterlockedIncrement(&over);
}

int main(void)
{
    HANDLE event = CreateEvent(NULL, FALSE, FALSE, NULL);
    PTP_WAIT one, two;
    int tries, had = 0;
    begin();
    one = CreateThreadpoolWait(counts, NULL, NULL);
    two = CreateThreadpoolWait(counts, NULL, NULL);
    for (tries = 0; tries < 100; tries++) {
        SetThreadpoolWait(one, event, NULL);
        SetThreadpoolWait(two, event, NULL);
        Sleep(5);
        SetEvent(event);
        SetEvent(event);
        had += WaitForSingleObject(event, 0) == WAIT_OBJECT_0;
        Sleep(5);
        SetThreadpoolWait(one, NULL, NULL);
        SetThreadpoolWait(two, NULL, NULL);
        ResetEvent(event);
    }
    printf("the thread had a signal %d times of 100\n", had);
    return end();
}
