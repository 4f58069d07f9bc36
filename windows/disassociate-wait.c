/* DisassociateCurrentThreadFromCallback, and waits for the object.
   The machine:  begun 1 0;  w1 disassociate -> ok (twice);  c1 end -> ended */
#include "probe.h"

static HANDLE first;

static void CALLBACK leaves(PTP_CALLBACK_INSTANCE i, void *name, PTP_WORK work)
{
    hold("the first part");
    DisassociateCurrentThreadFromCallback(i);
    DisassociateCurrentThreadFromCallback(i);
    WaitForThreadpoolWorkCallbacks(work, FALSE);
    puts("its own wait: back");
    hold("the second part");
}

int main(void)
{
    PTP_WORK work;
    begin();
    work = CreateThreadpoolWork(leaves, NULL, NULL);
    SubmitThreadpoolWork(work);
    reach(&begun, 1);
    first = by_thread(wait_work, work);
    say_back("a wait, before it", first);
    let(1);
    reach(&begun, 2);
    say_back("the same, behind it", first);
    say_back("a later wait with TRUE", by_thread(cancel_work, work));
    let(1);
    reach(&over, 2);
    return end();
}
