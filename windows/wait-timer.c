/* WaitForThreadpoolTimerCallbacks: a timer that isn't due, and a pending callback.
   The machine:  begun 0 0 and ended at once, the setting stays;  with TRUE begun 0 1 */
#include "probe.h"

int main(void)
{
    TP_CALLBACK_ENVIRON env;
    PTP_TIMER timer;
    begin();
    make_pool(&env, 1);
    timer = CreateThreadpoolTimer(pass_timer, "the timer", &env);
    set_timer(timer, in_ms(500), 0);
    WaitForThreadpoolTimerCallbacks(timer, FALSE);
    WaitForThreadpoolTimerCallbacks(timer, TRUE);
    printf("both waits are back before it is due: set %d\n", IsThreadpoolTimerSet(timer) != 0);
    printf("%ld ran when it was due\n", reach(&over, 1));

    SubmitThreadpoolWork(CreateThreadpoolWork(hold_work, "block", &env));
    reach(&begun, 2);
    set_timer(timer, in_ms(0), 300);
    Sleep(100);
    WaitForThreadpoolTimerCallbacks(timer, TRUE);
    let(1);
    reach(&over, 2);
    printf("behind a wait with TRUE: %ld ran by now\n", over - 2);
    Sleep(400);
    printf("and %ld ran a period later\n", over - 2);
    return end();
}
