/* CallbackMayRunLong in a pool with the maximum 1, of an object whose callbacks run long.
   The machine:  flag no */
#include "probe.h"

static void CALLBACK asks(PTP_CALLBACK_INSTANCE i, void *name, PTP_WORK work)
{
    puts(CallbackMayRunLong(i) ? "TRUE" : "FALSE");
    InterlockedIncrement(&over);
}

int main(void)
{
    TP_CALLBACK_ENVIRON env;
    begin();
    make_pool(&env, 1);
    SetThreadpoolCallbackRunsLong(&env);
    SubmitThreadpoolWork(CreateThreadpoolWork(asks, NULL, &env));
    reach(&over, 1);
    return end();
}
