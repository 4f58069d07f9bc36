/* CloseThreadpoolCleanupGroupMembers(TRUE): when the cancel routine of an idle member is called
   while the callback of another one runs.
   The machine:  closing 1 0 3;  look not-yet callback 1;  w1 return;  then the three notices */
#include "probe.h"

int main(void)
{
    TP_CALLBACK_ENVIRON env;
    PTP_CLEANUP_GROUP group;
    PTP_WORK work;
    HANDLE closer;
    begin();
    InitializeThreadpoolEnvironment(&env);
    group = make_group(&env);
    CreateThreadpoolWork(pass_work, "the idle one, made first", &env);
    work = CreateThreadpoolWork(hold_work, "the one that runs", &env);
    CreateThreadpoolWork(pass_work, "the idle one, made last", &env);
    SubmitThreadpoolWork(work);
    reach(&begun, 1);
    closer = by_thread(cancel_members, group);
    say_back("the close", closer);
    let(1);
    say_back("the close", closer);
    return end();
}
