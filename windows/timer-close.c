/* CloseThreadpoolTimer: with a callback pending, and while it is set. One thread, blocked.
   The machine:  later, and the pending one runs;  freed, and it never expires */
#include "probe.h"

int main(void)
{
    TP_CALLBACK_ENVIRON env;
    PTP_TIMER pending, waiting;
    begin();
    make_pool(&env, 1);
    SubmitThreadpoolWork(CreateThreadpoolWork(hold_work, "block", &env));
    reach(&begun, 1);
    pending = CreateThreadpoolTimer(pass_timer, "the one that was pending", &env);
    waiting = CreateThreadpoolTimer(pass_timer, "the one that was set", &env);
    set_timer(pending, in_ms(0), 0);
    set_timer(waiting, in_ms(300), 0);
    Sleep(100);
    CloseThreadpoolTimer(pending);
    CloseThreadpoolTimer(waiting);
    let(1);
    Sleep(600);
    printf("%ld ran\n", over - 1);
    return end();
}
