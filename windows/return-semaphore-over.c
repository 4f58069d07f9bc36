/* ReleaseSemaphoreWhenCallbackReturns above the maximum, with a mutex and an event beside it.
   The machine:  returned - done over-maximum done 0 0 */
#include "probe.h"

static HANDLE mutex, semaphore, event;

static void CALLBACK asks(PTP_CALLBACK_INSTANCE i, void *name, PTP_WORK work)
{
    WaitForSingleObject(mutex, INFINITE);
    ReleaseMutexWhenCallbackReturns(i, mutex);
    ReleaseSemaphoreWhenCallbackReturns(i, semaphore, 2);
    SetEventWhenCallbackReturns(i, event);
    pass(name);
}

int main(void)
{
    begin();
    mutex = CreateMutex(NULL, FALSE, NULL);
    semaphore = CreateSemaphore(NULL, 0, 1, NULL);
    event = CreateEvent(NULL, TRUE, FALSE, NULL);
    SubmitThreadpoolWork(CreateThreadpoolWork(asks, "a callback", NULL));
    reach(&over, 1);
    printf("the mutex was given back: %s\n", now(mutex));
    printf("the semaphore was raised: %s\n", now(semaphore));
    printf("the event was set: %s\n", now(event));
    return end();
}
