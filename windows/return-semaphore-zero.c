/* ReleaseSemaphoreWhenCallbackReturns by 0, with an event beside it.
   The machine: no such line can be written. */
#include "probe.h"

static HANDLE semaphore, event;

static void CALLBACK asks(PTP_CALLBACK_INSTANCE i, void *name, PTP_WORK work)
{
    ReleaseSemaphoreWhenCallbackReturns(i, semaphore, 0);
    SetEventWhenCallbackReturns(i, event);
    pass(name);
}

int main(void)
{
    begin();
    semaphore = CreateSemaphore(NULL, 0, 5, NULL);
    event = CreateEvent(NULL, TRUE, FALSE, NULL);
    SubmitThreadpoolWork(CreateThreadpoolWork(asks, "a callback", NULL));
    reach(&over, 1);
    printf("the semaphore was raised: %s\n", now(semaphore));
    printf("the event was set: %s\n", now(event));
    return end();
}
