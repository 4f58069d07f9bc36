/* CloseThreadpool, and then calls that name the pool. With the word `simple` behind the program's
   name a simple callback in place of an object.
   The machine:  refused pool-closed, for each */
#include "probe.h"

int main(int count, char **words)
{
    TP_CALLBACK_ENVIRON env;
    PTP_POOL pool;
    PTP_WORK work;
    begin();
    pool = make_pool(&env, 1);
    CreateThreadpoolWork(pass_work, "an object that keeps the pool", &env);
    CloseThreadpool(pool);
    SetThreadpoolThreadMaximum(pool, 2);
    printf("minimum: %s\n", SetThreadpoolThreadMinimum(pool, 1) ? "TRUE" : "FALSE");
    if (count > 1) {
        printf("a simple callback: %s\n", TrySubmitThreadpoolCallback(pass_simple, "it", &env) ? "TRUE" : "FALSE");
    } else {
        work = CreateThreadpoolWork(pass_work, "an object made later", &env);
        printf("an object: %s\n", work ? "made" : "not made");
        SubmitThreadpoolWork(work);
    }
    printf("%ld ran\n", reach(&over, 1));
    return end();
}
