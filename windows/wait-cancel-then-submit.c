/* WaitForThreadpoolWorkCallbacks(TRUE), and then a submit.
   The machine: the later callback runs and isn't covered: `ended` when the first is over. */
#include "probe.h"

int main(void)
{
    PTP_WORK work;
    HANDLE waiter;
    begin();
    work = CreateThreadpoolWork(hold_work, "a callback", NULL);
    SubmitThreadpoolWork(work);
    reach(&begun, 1);
    waiter = by_thread(cancel_work, work);
    SubmitThreadpoolWork(work);
    printf("%ld have begun\n", reach(&begun, 2));
    let(1);
    reach(&over, 1);
    say_back("the wait, when one of two is over", waiter);
    let(1);
    say_back("the wait, when both are over", waiter);
    return end();
}
