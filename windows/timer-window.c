/* A timer that is due after 100 ms, with a window of 500 ms, and no other timer.
   The machine: when it is due, whatever the window. */
#include "probe.h"

static DWORD start;

static void CALLBACK tells(PTP_CALLBACK_INSTANCE i, void *name, PTP_TIMER timer)
{
    printf("after %lu ms\n", GetTickCount() - start);
}

int main(void)
{
    FILETIME due = in_ms(100);
    begin();
    start = GetTickCount();
    SetThreadpoolTimer(CreateThreadpoolTimer(tells, NULL, NULL), &due, 0, 500);
    Sleep(1000);
    return end();
}
