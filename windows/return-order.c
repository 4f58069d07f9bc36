/* All four actions of a callback, and a wait for it. A thread looks again and again whether one of
   them is done, and then at once at those that should be done before it.
   The machine: section, mutex, semaphore, event, all before any wait for the callback can end. */
#include "probe.h"

enum { SECTION, MUTEX, SEMAPHORE, EVENT };
static const char *const names[] = { "section", "mutex", "semaphore", "event" };
static CRITICAL_SECTION section;
static HANDLE objects[4];

static void CALLBACK asks(PTP_CALLBACK_INSTANCE i, void *name, PTP_WORK work)
{
    EnterCriticalSection(&section);
    WaitForSingleObject(objects[MUTEX], INFINITE);
    SetEventWhenCallbackReturns(i, objects[EVENT]);
    ReleaseSemaphoreWhenCallbackReturns(i, objects[SEMAPHORE], 1);
    ReleaseMutexWhenCallbackReturns(i, objects[MUTEX]);
    LeaveCriticalSectionWhenCallbackReturns(i, &section);
    hold(name);
}

static BOOL is_done(int which)
{
    return which == SECTION ? TryEnterCriticalSection(&section) : WaitForSingleObject(objects[which], 0) == WAIT_OBJECT_0;
}

int main(void)
{
    int first, other;
    begin();
    for (first = EVENT; first >= SECTION; first--) {
        PTP_WORK work = CreateThreadpoolWork(asks, "a callback", NULL);
        InitializeCriticalSection(&section);
        objects[MUTEX] = CreateMutex(NULL, FALSE, NULL);
        objects[SEMAPHORE] = CreateSemaphore(NULL, 0, 5, NULL);
        objects[EVENT] = CreateEvent(NULL, TRUE, FALSE, NULL);
        SubmitThreadpoolWork(work);
        reach(&begun, EVENT - first + 1);
        let(1);
        while (!is_done(first))
            ;
        for (other = first - 1; other >= SECTION; other--)
            printf("before the %s the %s: %s\n", names[first], names[other], is_done(other) ? "yes" : "no");
        WaitForThreadpoolWorkCallbacks(work, FALSE);
        for (other = first + 1; other <= EVENT; other++)
            printf("before the wait is over the %s: %s\n", names[other], is_done(other) ? "yes" : "no");
    }
    return end();
}
