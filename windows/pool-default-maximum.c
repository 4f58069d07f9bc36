/* CreateThreadpool: how many callbacks run at once in a pool whose maximum was not set.
   The machine: as many as it has workers. */
#include "probe.h"

static void CALLBACK wait_here(PTP_CALLBACK_INSTANCE i, void *context, PTP_WORK work)
{
    InterlockedIncrement(&begun);
    WaitForSingleObject(gate, 20000);
}

int main(void)
{
    TP_CALLBACK_ENVIRON env;
    PTP_WORK work;
    begin();
    InitializeThreadpoolEnvironment(&env);
    SetThreadpoolCallbackPool(&env, CreateThreadpool(NULL));
    work = CreateThreadpoolWork(wait_here, NULL, &env);
    submit_one_by_one(work, 500);
    printf("%ld of 500 run\n", begun);
    return end();
}
