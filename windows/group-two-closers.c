/* Two threads close one group: the first with FALSE while one callback runs and one is pending,
   the second with TRUE.
   The machine:  closing 2 0 0, closing 1 1 0;  the pending one never runs, both wait for the other */
#include "probe.h"

int main(void)
{
    TP_CALLBACK_ENVIRON env;
    PTP_CLEANUP_GROUP group;
    PTP_WORK work;
    HANDLE first, second;
    begin();
    make_pool(&env, 1);
    group = make_group(&env);
    work = CreateThreadpoolWork(hold_work, "a callback", &env);
    SubmitThreadpoolWork(work);
    SubmitThreadpoolWork(work);
    reach(&begun, 1);
    first = by_thread(close_members, group);
    second = by_thread(cancel_members, group);
    say_back("the second close", second);
    let(2);
    say_back("the first close", first);
    printf("%ld of 2 ran\n", reach(&begun, 2));
    return end();
}
