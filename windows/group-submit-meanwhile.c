/* A member's callback submits the member while the group is closed.
   The machine:  w1 submit 1 -> refused released */
#include "probe.h"

static void CALLBACK submits(PTP_CALLBACK_INSTANCE i, void *name, PTP_WORK work)
{
    hold(name);
    if (begun == 1)
        SubmitThreadpoolWork(work);
}

int main(void)
{
    TP_CALLBACK_ENVIRON env;
    PTP_CLEANUP_GROUP group;
    HANDLE closer;
    begin();
    InitializeThreadpoolEnvironment(&env);
    group = make_group(&env);
    SubmitThreadpoolWork(CreateThreadpoolWork(submits, "a callback", &env));
    reach(&begun, 1);
    closer = by_thread(close_members, group);
    let(1);
    printf("%ld have begun\n", reach(&begun, 2));
    say_back("the close", closer);
    let(1);
    say_back("the close, when that is over too", closer);
    return end();
}
