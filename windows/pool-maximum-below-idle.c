/* SetThreadpoolThreadMaximum from 3 to 1 while 3 threads are idle, then 3 callbacks.
   The machine: one at a time from the next take on. */
#include "probe.h"

int main(void)
{
    TP_CALLBACK_ENVIRON env;
    PTP_POOL pool;
    PTP_WORK work;
    int count;
    begin();
    pool = make_pool(&env, 3);
    work = CreateThreadpoolWork(hold_work, "a callback", &env);
    submit_one_by_one(work, 3);
    printf("%ld run\n", begun);
    let(3);
    reach(&over, 3);
    SetThreadpoolThreadMaximum(pool, 1);
    puts("the maximum is 1");
    for (count = 0; count < 3; count++)
        SubmitThreadpoolWork(work);
    reach(&begun, 6);
    printf("%ld run\n", begun - over);
    return end();
}
