/* IsThreadpoolTimerSet of a new, a set, an expired, a periodic and an unset timer.
   The machine:  flag no, flag yes, flag no (in its callback too), flag yes, flag no */
#include "probe.h"

static void CALLBACK tells(PTP_CALLBACK_INSTANCE i, void *name, PTP_TIMER timer)
{
    printf("in its callback: %d\n", IsThreadpoolTimerSet(timer) != 0);
    InterlockedIncrement(&over);
}

int main(void)
{
    PTP_TIMER timer;
    begin();
    timer = CreateThreadpoolTimer(tells, NULL, NULL);
    printf("new: %d\n", IsThreadpoolTimerSet(timer) != 0);
    set_timer(timer, in_ms(100), 0);
    printf("set: %d\n", IsThreadpoolTimerSet(timer) != 0);
    reach(&over, 1);
    printf("expired: %d\n", IsThreadpoolTimerSet(timer) != 0);
    puts("with a period");
    set_timer(timer, in_ms(100), 10000);
    reach(&over, 2);
    printf("expired once: %d\n", IsThreadpoolTimerSet(timer) != 0);
    SetThreadpoolTimer(timer, NULL, 0, 0);
    printf("unset: %d\n", IsThreadpoolTimerSet(timer) != 0);
    return end();
}
