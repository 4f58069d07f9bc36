/* SetThreadpoolThreadMaximum: 0, and one below the minimum.
   The machine: 0 counts as 1, and the minimum goes down with the maximum and stays there. */
#include "probe.h"
#include "threads.h"

int main(void)
{
    TP_CALLBACK_ENVIRON env;
    PTP_POOL pool;
    PTP_WORK work;
    LONG before;
    begin();
    pool = make_pool(&env, 0);
    work = CreateThreadpoolWork(hold_work, "a callback", &env);
    SubmitThreadpoolWork(work);
    SubmitThreadpoolWork(work);
    printf("maximum 0: %ld of 2 run\n", reach(&begun, 2));
    let(2);
    reach(&over, 2);

    before = count_threads();
    pool = make_pool(&env, 4);
    SetThreadpoolThreadMinimum(pool, 3);
    Sleep(200);
    printf("minimum 3: %ld threads more\n", count_threads() - before);
    before = count_threads();
    pool = make_pool(&env, 4);
    SetThreadpoolThreadMaximum(pool, 1);
    SetThreadpoolThreadMaximum(pool, 4);
    Sleep(200);
    printf("maximum 4, 1 and 4 again, no minimum: %ld threads more\n", count_threads() - before);
    return end();
}
