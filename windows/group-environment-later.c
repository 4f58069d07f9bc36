/* SetThreadpoolCallbackCleanupGroup once an object was made with the environment.
   The machine: the object stays with the group that it was made with, so one notice. */
#include "probe.h"

int main(void)
{
    TP_CALLBACK_ENVIRON env;
    PTP_CLEANUP_GROUP first, second;
    begin();
    InitializeThreadpoolEnvironment(&env);
    first = make_group(&env);
    CreateThreadpoolWork(pass_work, "the object", &env);
    second = make_group(&env);
    puts("close of the second group");
    CloseThreadpoolCleanupGroupMembers(second, TRUE, NULL);
    puts("close of the first group");
    CloseThreadpoolCleanupGroupMembers(first, TRUE, NULL);
    return end();
}
