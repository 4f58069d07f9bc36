/* One thread waits with FALSE, and then another with TRUE; one callback runs and two are pending.
   The machine:  begun 3 0, begun 1 2;  both ended when the one that runs is over */
#include "probe.h"

int main(void)
{
    TP_CALLBACK_ENVIRON env;
    PTP_WORK work;
    HANDLE first, second;
    begin();
    make_pool(&env, 1);
    work = CreateThreadpoolWork(hold_work, "a callback", &env);
    SubmitThreadpoolWork(work);
    SubmitThreadpoolWork(work);
    SubmitThreadpoolWork(work);
    reach(&begun, 1);
    first = by_thread(wait_work, work);
    second = by_thread(cancel_work, work);
    say_back("the wait with FALSE", first);
    let(1);
    reach(&over, 1);
    say_back("the wait with FALSE, when the first is over", first);
    say_back("the wait with TRUE", second);
    printf("%ld of 3 ran\n", reach(&begun, 2));
    return end();
}
