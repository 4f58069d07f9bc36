/* CallbackMayRunLong, once and again in one callback, by the maximum of the pool and by what its
   threads do.
   The machine: each time whether the pool has an idle worker or may have one more. */
#include "probe.h"

static void CALLBACK asks(PTP_CALLBACK_INSTANCE i, void *name, PTP_WORK work)
{
    BOOL first = CallbackMayRunLong(i), second = CallbackMayRunLong(i);
    printf("%s: %s, and again: %s\n", (char *)name, first ? "TRUE" : "FALSE", second ? "TRUE" : "FALSE");
    InterlockedIncrement(&begun);
    InterlockedIncrement(&over);
}

int main(void)
{
    TP_CALLBACK_ENVIRON env;
    begin();
    make_pool(&env, 1);
    SubmitThreadpoolWork(CreateThreadpoolWork(asks, "maximum 1", &env));
    reach(&over, 1);
    make_pool(&env, 2);
    SubmitThreadpoolWork(CreateThreadpoolWork(asks, "maximum 2, one thread", &env));
    reach(&over, 2);
    SubmitThreadpoolWork(CreateThreadpoolWork(hold_work, "the other callback", &env));
    reach(&begun, 3);
    SubmitThreadpoolWork(CreateThreadpoolWork(asks, "maximum 2, the other one busy", &env));
    reach(&over, 3);
    let(1);
    reach(&over, 4);
    SubmitThreadpoolWork(CreateThreadpoolWork(asks, "maximum 2, the other one idle", &env));
    reach(&over, 5);
    return end();
}
