/* DisassociateCurrentThreadFromCallback by a thread that doesn't run the callback.
   The machine:  c1 disassociate -> refused not-running */
#include "probe.h"

static PTP_CALLBACK_INSTANCE instance;

static void CALLBACK keeps(PTP_CALLBACK_INSTANCE i, void *name, PTP_WORK work)
{
    instance = i;
    hold(name);
}

int main(void)
{
    PTP_WORK work;
    HANDLE waiter;
    begin();
    work = CreateThreadpoolWork(keeps, "a callback", NULL);
    SubmitThreadpoolWork(work);
    reach(&begun, 1);
    waiter = by_thread(wait_work, work);
    DisassociateCurrentThreadFromCallback(instance);
    say_back("the wait, behind the call", waiter);
    let(1);
    say_back("the wait, when the callback is over", waiter);
    return end();
}
