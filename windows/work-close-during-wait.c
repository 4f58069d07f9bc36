/* CloseThreadpoolWork while another thread waits for the object.
   The machine:  c1 wait work 1 keep -> begun 1 0;  c2 close work 1 -> later;
                 w1 return;  c1 end -> ended */
#include "probe.h"

int main(void)
{
    PTP_WORK work;
    HANDLE waiter;
    begin();
    work = CreateThreadpoolWork(hold_work, "a callback", NULL);
    SubmitThreadpoolWork(work);
    reach(&begun, 1);
    waiter = by_thread(wait_work, work);
    CloseThreadpoolWork(work);
    say_back("the wait, when the object is closed", waiter);
    let(1);
    say_back("the wait, when the callback is over", waiter);
    return end();
}
