/* SetThreadpoolCallbackRunsLong, and a pool that keeps a minimum of 1: does a second thread come
   while a long callback runs?
   The machine: a worker may attach, since none is available. */
#include "probe.h"
#include "threads.h"

int main(void)
{
    TP_CALLBACK_ENVIRON env;
    PTP_POOL pool;
    LONG before;
    begin();
    before = count_threads();
    pool = make_pool(&env, 4);
    SetThreadpoolThreadMinimum(pool, 1);
    SetThreadpoolCallbackRunsLong(&env);
    SubmitThreadpoolWork(CreateThreadpoolWork(hold_work, "a long callback", &env));
    reach(&begun, 1);
    Sleep(500);
    printf("threads that came: %ld\n", count_threads() - before);
    return end();
}
