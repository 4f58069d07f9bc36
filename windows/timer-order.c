/* Three timers with different due times, set in another order. One thread, blocked until all are due.
   The machine:  by due time, so 1 2 3 */
#include "probe.h"

int main(void)
{
    TP_CALLBACK_ENVIRON env;
    begin();
    make_pool(&env, 1);
    SubmitThreadpoolWork(CreateThreadpoolWork(hold_work, "block", &env));
    reach(&begun, 1);
    set_timer(CreateThreadpoolTimer(pass_timer, "2, due after 200 ms", &env), in_ms(200), 0);
    set_timer(CreateThreadpoolTimer(pass_timer, "3, due after 300 ms", &env), in_ms(300), 0);
    set_timer(CreateThreadpoolTimer(pass_timer, "1, due after 100 ms", &env), in_ms(100), 0);
    Sleep(500);
    let(1);
    reach(&over, 4);
    return end();
}
