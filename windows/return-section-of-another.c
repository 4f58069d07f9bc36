/* LeaveCriticalSectionWhenCallbackReturns of a section that another thread owns.
   The machine:  returned not-owner - - - 0 0;  it stays the other's */
#include "probe.h"

static CRITICAL_SECTION section;

static void CALLBACK leaves(PTP_CALLBACK_INSTANCE i, void *name, PTP_WORK work)
{
    LeaveCriticalSectionWhenCallbackReturns(i, &section);
    pass(name);
}

static DWORD WINAPI tries(void *none)
{
    return TryEnterCriticalSection(&section);
}

int main(void)
{
    HANDLE thread;
    DWORD had;
    begin();
    InitializeCriticalSection(&section);
    EnterCriticalSection(&section);
    SubmitThreadpoolWork(CreateThreadpoolWork(leaves, "a callback", NULL));
    reach(&over, 1);
    thread = by_thread(tries, NULL);
    WaitForSingleObject(thread, 1000);
    GetExitCodeThread(thread, &had);
    printf("a third thread can have it: %s\n", had ? "yes" : "no");
    return end();
}
