/* SetThreadpoolTimer(NULL) while a callback of the timer is pending. One thread, blocked.
   The machine:  queued 0 0, and the pending callback still runs */
#include "probe.h"

int main(void)
{
    TP_CALLBACK_ENVIRON env;
    PTP_TIMER timer;
    begin();
    make_pool(&env, 1);
    SubmitThreadpoolWork(CreateThreadpoolWork(hold_work, "block", &env));
    reach(&begun, 1);
    timer = CreateThreadpoolTimer(pass_timer, "the timer", &env);
    set_timer(timer, in_ms(0), 0);
    Sleep(100);
    SetThreadpoolTimer(timer, NULL, 0, 0);
    let(1);
    printf("%ld ran\n", reach(&over, 2) - 1);
    return end();
}
