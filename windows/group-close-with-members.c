/* CloseThreadpoolCleanupGroup with a member, and then a new member.
   The machine:  refused has-members 1, and the group stays open */
#include "probe.h"

int main(void)
{
    TP_CALLBACK_ENVIRON env;
    PTP_CLEANUP_GROUP group;
    PTP_WORK work, other;
    begin();
    InitializeThreadpoolEnvironment(&env);
    group = make_group(&env);
    work = CreateThreadpoolWork(pass_work, "the member", &env);
    CloseThreadpoolCleanupGroup(group);
    puts("closed");
    SubmitThreadpoolWork(work);
    printf("%ld ran\n", reach(&over, 1));
    other = CreateThreadpoolWork(pass_work, "a new member", &env);
    printf("a new member: %s\n", other ? "made" : "not made");
    SubmitThreadpoolWork(other);
    reach(&over, 2);
    return end();
}
