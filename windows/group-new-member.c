/* A member is made while the group is closed, and a simple callback.
   The machine: neither is covered; both are members for the next close. */
#include "probe.h"

int main(void)
{
    TP_CALLBACK_ENVIRON env;
    PTP_CLEANUP_GROUP group;
    PTP_WORK work;
    HANDLE closer;
    begin();
    InitializeThreadpoolEnvironment(&env);
    group = make_group(&env);
    SubmitThreadpoolWork(CreateThreadpoolWork(hold_work, "the old member", &env));
    reach(&begun, 1);
    closer = by_thread(cancel_members, group);
    work = CreateThreadpoolWork(pass_work, "the new member", &env);
    TrySubmitThreadpoolCallback(pass_simple, "a simple one", &env);
    let(1);
    say_back("the close", closer);
    SubmitThreadpoolWork(work);
    printf("%ld ran\n", reach(&over, 3));
    puts("a second close");
    CloseThreadpoolCleanupGroupMembers(group, TRUE, NULL);
    return end();
}
