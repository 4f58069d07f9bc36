/* ReleaseMutexWhenCallbackReturns of a mutex that the callback took twice.
   The machine:  returned - done - - 0 0, once; the worker owns it still */
#include "probe.h"

static HANDLE mutex;

static void CALLBACK asks(PTP_CALLBACK_INSTANCE i, void *name, PTP_WORK work)
{
    WaitForSingleObject(mutex, INFINITE);
    WaitForSingleObject(mutex, INFINITE);
    ReleaseMutexWhenCallbackReturns(i, mutex);
    pass(name);
}

int main(void)
{
    begin();
    mutex = CreateMutex(NULL, FALSE, NULL);
    SubmitThreadpoolWork(CreateThreadpoolWork(asks, "a callback", NULL));
    reach(&over, 1);
    printf("the mutex can be had: %s\n", now(mutex));
    return end();
}
