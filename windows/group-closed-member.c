/* CloseThreadpoolCleanupGroupMembers(TRUE) while a simple callback runs, and one of a member that
   was closed before.
   The machine: both are waited for, and none of them gives a notice. */
#include "probe.h"

int main(void)
{
    TP_CALLBACK_ENVIRON env;
    PTP_CLEANUP_GROUP group;
    PTP_WORK work;
    HANDLE closer;
    begin();
    InitializeThreadpoolEnvironment(&env);
    group = make_group(&env);
    TrySubmitThreadpoolCallback(hold_simple, "a simple one", &env);
    reach(&begun, 1);
    closer = by_thread(cancel_members, group);
    say_back("the close, while a simple one runs", closer);
    let(1);
    say_back("the same, when it is over", closer);
    work = CreateThreadpoolWork(hold_work, "one of a closed object", &env);
    SubmitThreadpoolWork(work);
    reach(&begun, 2);
    CloseThreadpoolWork(work);
    closer = by_thread(cancel_members, group);
    say_back("the close, while one of a closed object runs", closer);
    let(1);
    say_back("the same, when it is over", closer);
    return end();
}
