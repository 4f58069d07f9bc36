/* WaitForThreadpoolWorkCallbacks(FALSE), and then a submit.
   The machine:  c1 wait work 1 keep -> begun 1 0;  c2 submit 1 -> queued 2 1;
                 w1 return;  c1 end -> ended, while callback 2 is pending or runs */
#include "probe.h"

int main(void)
{
    PTP_WORK work;
    HANDLE waiter;
    begin();
    work = CreateThreadpoolWork(hold_work, "a callback", NULL);
    SubmitThreadpoolWork(work);
    reach(&begun, 1);
    waiter = by_thread(wait_work, work);
    SubmitThreadpoolWork(work);
    reach(&begun, 2);
    let(1);
    reach(&over, 1);
    say_back("the wait, when one of two is over", waiter);
    let(1);
    say_back("the wait, when both are over", waiter);
    return end();
}
