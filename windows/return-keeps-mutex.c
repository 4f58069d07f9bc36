/* A callback takes a mutex and returns without giving it back. One thread.
   The machine: it stays the worker's, so its next callback has it and a client doesn't. */
#include "probe.h"

static HANDLE mutex;

static void CALLBACK takes(PTP_CALLBACK_INSTANCE i, void *name, PTP_WORK work)
{
    printf("%s can have it: %s\n", (char *)name, now(mutex));
    InterlockedIncrement(&over);
}

int main(void)
{
    TP_CALLBACK_ENVIRON env;
    PTP_WORK work;
    begin();
    mutex = CreateMutex(NULL, FALSE, NULL);
    make_pool(&env, 1);
    work = CreateThreadpoolWork(takes, "a callback", &env);
    SubmitThreadpoolWork(work);
    reach(&over, 1);
    printf("the main thread can have it: %s\n", now(mutex));
    SubmitThreadpoolWork(work);
    reach(&over, 2);
    return end();
}
