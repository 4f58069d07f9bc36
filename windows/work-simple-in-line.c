/* TrySubmitThreadpoolCallback in one line with work and a timer of the same priority. One thread.
   The machine: in the order in which they were made, so 1 2 3 4. */
#include "probe.h"

int main(void)
{
    TP_CALLBACK_ENVIRON env;
    PTP_TIMER timer;
    begin();
    make_pool(&env, 1);
    SubmitThreadpoolWork(CreateThreadpoolWork(hold_work, "block", &env));
    reach(&begun, 1);
    timer = CreateThreadpoolTimer(pass_timer, "3, a timer", &env);
    SubmitThreadpoolWork(CreateThreadpoolWork(pass_work, "1, work", &env));
    TrySubmitThreadpoolCallback(pass_simple, "2, a simple one", &env);
    set_timer(timer, in_ms(0), 0);
    Sleep(100);
    SubmitThreadpoolWork(CreateThreadpoolWork(pass_work, "4, work", &env));
    let(1);
    reach(&over, 5);
    return end();
}
