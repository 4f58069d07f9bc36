/* SetThreadpoolThreadMaximum from 3 to 1 while 3 callbacks run and 3 are pending.
   The machine: the next one begins when none of the three runs any more. */
#include "probe.h"

int main(void)
{
    TP_CALLBACK_ENVIRON env;
    PTP_POOL pool;
    PTP_WORK work;
    int count;
    begin();
    pool = make_pool(&env, 3);
    work = CreateThreadpoolWork(hold_work, "a callback", &env);
    submit_one_by_one(work, 3);
    for (count = 0; count < 3; count++)
        SubmitThreadpoolWork(work);
    SetThreadpoolThreadMaximum(pool, 1);
    puts("the maximum is 1");
    let(1);
    reach(&begun, 4);
    printf("%ld run\n", begun - over);
    return end();
}
