/* SetThreadpoolThreadMinimum above the maximum.
   The machine: the maximum goes up to it. */
#include "probe.h"

int main(void)
{
    TP_CALLBACK_ENVIRON env;
    PTP_POOL pool;
    PTP_WORK work;
    int count;
    begin();
    pool = make_pool(&env, 1);
    printf("minimum 3: %s\n", SetThreadpoolThreadMinimum(pool, 3) ? "TRUE" : "FALSE");
    work = CreateThreadpoolWork(hold_work, "a callback", &env);
    for (count = 0; count < 4; count++)
        SubmitThreadpoolWork(work);
    reach(&begun, 3);
    printf("%ld of 4 run\n", begun);
    return end();
}
