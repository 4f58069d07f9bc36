/* SetEventWhenCallbackReturns of what is no handle, with a mutex and a semaphore beside it.
   The machine:  refused no-such, in the call;  the others are performed */
#include "probe.h"

static HANDLE mutex, semaphore;

static void CALLBACK asks(PTP_CALLBACK_INSTANCE i, void *name, PTP_WORK work)
{
    WaitForSingleObject(mutex, INFINITE);
    ReleaseMutexWhenCallbackReturns(i, mutex);
    ReleaseSemaphoreWhenCallbackReturns(i, semaphore, 1);
    SetEventWhenCallbackReturns(i, (HANDLE)(ULONG_PTR)0xdeadbee0u);
    pass(name);
}

int main(void)
{
    begin();
    mutex = CreateMutex(NULL, FALSE, NULL);
    semaphore = CreateSemaphore(NULL, 0, 5, NULL);
    SubmitThreadpoolWork(CreateThreadpoolWork(asks, "a callback", NULL));
    reach(&over, 1);
    printf("the mutex was given back: %s\n", now(mutex));
    printf("the semaphore was raised: %s\n", now(semaphore));
    return end();
}
