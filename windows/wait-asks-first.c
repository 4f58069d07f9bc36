/* A callback asks an event by WaitForSingleObject(stop, 0), and submits its own object unless it is
   set. Between the question and the submit the event is set, and WaitForThreadpoolWorkCallbacks(FALSE)
   is called.
   The machine: the wait ends with the first callback, and the second one runs behind it; that is told
   yes, and submits nothing. The event stays set. */
#include "probe.h"

static HANDLE stop;

static void CALLBACK ask(PTP_CALLBACK_INSTANCE i, void *name, PTP_WORK work)
{
    BOOL is_told = WaitForSingleObject(stop, 0) == WAIT_OBJECT_0;
    printf("%s is told: %s\n", (char *)name, is_told ? "yes" : "no");
    hold(name);
    if (!is_told)
        SubmitThreadpoolWork(work);
}

int main(void)
{
    TP_CALLBACK_ENVIRON env;
    PTP_WORK work;
    HANDLE waiter;
    begin();
    stop = CreateEvent(NULL, TRUE, FALSE, NULL);
    make_pool(&env, 1);
    work = CreateThreadpoolWork(ask, "a callback", &env);
    SubmitThreadpoolWork(work);
    reach(&begun, 1);
    SetEvent(stop);
    waiter = by_thread(wait_work, work);
    let(1);
    reach(&begun, 2);
    say_back("after the first callback the wait", waiter);
    let(1);
    reach(&over, 2);
    say_back("after the second callback the wait", waiter);
    printf("%ld callbacks, and the event is still set: %s\n", reach(&begun, 3), now(stop));
    return end();
}
