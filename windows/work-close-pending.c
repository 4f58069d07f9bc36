/* CloseThreadpoolWork while a callback runs and another is pending; then in the object's own callback.
   The machine: `later`, and what is pending still runs. */
#include "probe.h"

static void CALLBACK close_own(PTP_CALLBACK_INSTANCE i, void *name, PTP_WORK work)
{
    if (begun == 3)
        CloseThreadpoolWork(work);
    pass(name);
}

int main(void)
{
    TP_CALLBACK_ENVIRON env;
    PTP_WORK work;
    begin();
    make_pool(&env, 1);
    work = CreateThreadpoolWork(hold_work, "a callback", &env);
    SubmitThreadpoolWork(work);
    SubmitThreadpoolWork(work);
    reach(&begun, 1);
    CloseThreadpoolWork(work);
    puts("closed");
    let(2);
    printf("%ld of 2 ran\n", reach(&over, 2));

    SubmitThreadpoolWork(CreateThreadpoolWork(hold_work, "block", &env));
    reach(&begun, 3);
    work = CreateThreadpoolWork(close_own, "one that closes its object", &env);
    SubmitThreadpoolWork(work);
    SubmitThreadpoolWork(work);
    let(1);
    printf("%ld of 2 ran\n", reach(&over, 5) - 3);
    return end();
}
