/* WaitForThreadpoolWorkCallbacks(FALSE), and the callback submits its object four times, one run
   after the other.
   The machine: the wait ends after the first run. */
#include "probe.h"

static void CALLBACK again(PTP_CALLBACK_INSTANCE i, void *name, PTP_WORK work)
{
    hold(name);
    if (begun < 5)
        SubmitThreadpoolWork(work);
}

int main(void)
{
    TP_CALLBACK_ENVIRON env;
    PTP_WORK work;
    HANDLE waiter;
    LONG run;
    begin();
    make_pool(&env, 1);
    work = CreateThreadpoolWork(again, "a callback", &env);
    SubmitThreadpoolWork(work);
    reach(&begun, 1);
    waiter = by_thread(wait_work, work);
    for (run = 1; run <= 5; run++) {
        let(1);
        reach(&over, run);
        printf("after run %ld ", run);
        say_back("the wait", waiter);
    }
    return end();
}
