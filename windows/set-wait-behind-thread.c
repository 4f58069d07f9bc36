/* A thread waits for an event, then a wait object is armed on it, then it is set; and the same
   with the wait object first.
   The machine: the armed wait has it, both times. */
#include "probe.h"

static DWORD WINAPI waits(void *event)
{
    if (WaitForSingleObject(event, 1000) == WAIT_OBJECT_0)
        puts("the thread has it");
    return 0;
}

int main(void)
{
    HANDLE event = CreateEvent(NULL, FALSE, FALSE, NULL), thread;
    PTP_WAIT wait;
    begin();
    wait = CreateThreadpoolWait(pass_wait, "the wait object", NULL);
    puts("the thread first");
    thread = by_thread(waits, event);
    SetThreadpoolWait(wait, event, NULL);
    Sleep(100);
    SetEvent(event);
    WaitForSingleObject(thread, INFINITE);
    SetThreadpoolWait(wait, NULL, NULL);
    puts("the wait object first");
    SetThreadpoolWait(wait, event, NULL);
    Sleep(100);
    thread = by_thread(waits, event);
    SetEvent(event);
    WaitForSingleObject(thread, INFINITE);
    return end();
}
