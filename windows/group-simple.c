/* CloseThreadpoolCleanupGroupMembers(TRUE) with pending simple callbacks.
   The machine:  closing 0 2 2 for two objects and two simple callbacks: no notice for the latter */
#include "probe.h"

int main(void)
{
    TP_CALLBACK_ENVIRON env, plain;
    PTP_CLEANUP_GROUP group;
    PTP_POOL pool;
    HANDLE closer;
    begin();
    pool = make_pool(&env, 1);
    InitializeThreadpoolEnvironment(&plain);
    SetThreadpoolCallbackPool(&plain, pool);
    group = make_group(&env);
    SubmitThreadpoolWork(CreateThreadpoolWork(hold_work, "block", &plain));
    reach(&begun, 1);
    CreateThreadpoolWork(pass_work, "1, an object", &env);
    TrySubmitThreadpoolCallback(pass_simple, "2, a simple one", &env);
    CreateThreadpoolWork(pass_work, "3, an object", &env);
    TrySubmitThreadpoolCallback(pass_simple, "4, a simple one", &env);
    closer = by_thread(cancel_members, group);
    say_back("the close", closer);
    let(1);
    printf("%ld ran besides\n", reach(&over, 2) - 1);
    return end();
}
