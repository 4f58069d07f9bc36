/* SetThreadpoolCallbackPersistent: how many callbacks with the mark run at once in a pool of up to 4
   threads, and does one thread run them all, also after it was idle for a while?
   The machine: one at a time, and one worker runs them all. */
#include "probe.h"

static volatile LONG kept;

static void CALLBACK run(PTP_CALLBACK_INSTANCE i, void *name, PTP_WORK w)
{
    LONG self = (LONG)GetCurrentThreadId();
    LONG first = InterlockedCompareExchange(&kept, self, 0);
    printf("%s\n", first == 0 || first == self ? "the first thread" : "another thread");
    hold(name);
}

int main(void)
{
    TP_CALLBACK_ENVIRON env;
    PTP_WORK work;
    LONG round, each;
    begin();
    make_pool(&env, 4);
    /* What SetThreadpoolCallbackPersistent is; the headers of mingw have no function of that name. */
    TpSetCallbackPersistent(&env);
    work = CreateThreadpoolWork(run, "a persistent callback", &env);
    for (round = 1; round <= 2; round++) {
        for (each = 0; each < 4; each++)
            SubmitThreadpoolWork(work);
        printf("at once: %ld\n", reach(&begun, 4 * round) - over);
        let(4);
        reach(&over, 4 * round);
        Sleep(1000);
    }
    return end();
}
