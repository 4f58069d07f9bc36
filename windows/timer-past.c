/* SetThreadpoolTimer to a moment that is 1.05 s ago, with a period of 0.5 s.
   The machine: at once, and then at the moments that are whole periods after the one that was
   named: after 0, 450, 950 ms. */
#include "probe.h"

static DWORD start;

static void CALLBACK tells(PTP_CALLBACK_INSTANCE i, void *name, PTP_TIMER timer)
{
    printf("after %lu ms\n", GetTickCount() - start);
    InterlockedIncrement(&over);
}

int main(void)
{
    PTP_TIMER timer;
    begin();
    timer = CreateThreadpoolTimer(tells, NULL, NULL);
    start = GetTickCount();
    set_timer(timer, moment(-1050), 500);
    Sleep(1300);
    return end();
}
