/* SetThreadpoolThreadMaximum from 1 to 4 while one callback runs and three are pending.
   The machine: three workers may attach at once; that they do is not promised. */
#include "probe.h"

int main(void)
{
    TP_CALLBACK_ENVIRON env;
    PTP_POOL pool;
    PTP_WORK work;
    int count;
    begin();
    pool = make_pool(&env, 1);
    work = CreateThreadpoolWork(hold_work, "a callback", &env);
    for (count = 0; count < 4; count++)
        SubmitThreadpoolWork(work);
    reach(&begun, 1);
    SetThreadpoolThreadMaximum(pool, 4);
    printf("the maximum is 4: %ld run\n", reach(&begun, 4));
    SubmitThreadpoolWork(work);
    printf("one more is submitted: %ld run\n", reach(&begun, 4));
    return end();
}
