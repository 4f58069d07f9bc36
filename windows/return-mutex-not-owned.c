/* ReleaseMutexWhenCallbackReturns of a mutex that the callback doesn't own, with a semaphore and
   an event beside it.
   The machine:  returned - not-owner done done 0 0 */
#include "probe.h"

static HANDLE mutex, semaphore, event;

static void CALLBACK asks(PTP_CALLBACK_INSTANCE i, void *name, PTP_WORK work)
{
    ReleaseMutexWhenCallbackReturns(i, mutex);
    ReleaseSemaphoreWhenCallbackReturns(i, semaphore, 1);
    SetEventWhenCallbackReturns(i, event);
    pass(name);
}

int main(void)
{
    begin();
    mutex = CreateMutex(NULL, FALSE, NULL);
    semaphore = CreateSemaphore(NULL, 0, 5, NULL);
    event = CreateEvent(NULL, TRUE, FALSE, NULL);
    SubmitThreadpoolWork(CreateThreadpoolWork(asks, "a callback", NULL));
    reach(&over, 1);
    printf("the semaphore was raised: %s\n", now(semaphore));
    printf("the event was set: %s\n", now(event));
    return end();
}
