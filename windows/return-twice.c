/* SetEventWhenCallbackReturns and the other three, a second time in one callback.
   The machine:  refused slot-taken, and the first is performed */
#include "probe.h"

static HANDLE first_event, second_event, first_semaphore, second_semaphore, first_mutex, second_mutex;
static CRITICAL_SECTION first_section, second_section;

static void CALLBACK asks(PTP_CALLBACK_INSTANCE i, void *name, PTP_WORK work)
{
    WaitForSingleObject(first_mutex, INFINITE);
    WaitForSingleObject(second_mutex, INFINITE);
    EnterCriticalSection(&first_section);
    EnterCriticalSection(&second_section);
    LeaveCriticalSectionWhenCallbackReturns(i, &first_section);
    LeaveCriticalSectionWhenCallbackReturns(i, &second_section);
    ReleaseMutexWhenCallbackReturns(i, first_mutex);
    ReleaseMutexWhenCallbackReturns(i, second_mutex);
    ReleaseSemaphoreWhenCallbackReturns(i, first_semaphore, 1);
    ReleaseSemaphoreWhenCallbackReturns(i, second_semaphore, 1);
    SetEventWhenCallbackReturns(i, first_event);
    SetEventWhenCallbackReturns(i, second_event);
    pass(name);
}

int main(void)
{
    begin();
    first_event = CreateEvent(NULL, TRUE, FALSE, NULL);
    second_event = CreateEvent(NULL, TRUE, FALSE, NULL);
    first_semaphore = CreateSemaphore(NULL, 0, 5, NULL);
    second_semaphore = CreateSemaphore(NULL, 0, 5, NULL);
    first_mutex = CreateMutex(NULL, FALSE, NULL);
    second_mutex = CreateMutex(NULL, FALSE, NULL);
    InitializeCriticalSection(&first_section);
    InitializeCriticalSection(&second_section);
    SubmitThreadpoolWork(CreateThreadpoolWork(asks, "a callback", NULL));
    reach(&over, 1);
    printf("sections: %d %d\n", TryEnterCriticalSection(&first_section) != 0, TryEnterCriticalSection(&second_section) != 0);
    printf("mutexes: %s %s\n", now(first_mutex), now(second_mutex));
    printf("semaphores: %s %s\n", now(first_semaphore), now(second_semaphore));
    printf("events: %s %s\n", now(first_event), now(second_event));
    return end();
}
