/* A callback that has disassociated itself runs, and another thread closes its group; then the
   same where its object was closed before.
   The machine:  closing 1 0 1, look not-yet callback 1 until it returns, then the notice;
                 close work 2 -> freed, closing 1 0 0, look not-yet callback 2 until it returns */
#include "probe.h"

static void CALLBACK leaves(PTP_CALLBACK_INSTANCE i, void *name, PTP_WORK work)
{
    DisassociateCurrentThreadFromCallback(i);
    hold(name);
}

int main(void)
{
    TP_CALLBACK_ENVIRON env;
    PTP_CLEANUP_GROUP group;
    PTP_WORK work;
    HANDLE closer;
    begin();
    InitializeThreadpoolEnvironment(&env);
    group = make_group(&env);
    SubmitThreadpoolWork(CreateThreadpoolWork(leaves, "a callback", &env));
    reach(&begun, 1);
    closer = by_thread(cancel_members, group);
    say_back("the close with TRUE", closer);
    let(1);
    say_back("the same, when it is over", closer);
    work = CreateThreadpoolWork(leaves, "another one", &env);
    SubmitThreadpoolWork(work);
    reach(&begun, 2);
    CloseThreadpoolWork(work);
    closer = by_thread(close_members, group);
    say_back("the close, with the object closed before", closer);
    let(1);
    say_back("the same, when it is over", closer);
    return end();
}
