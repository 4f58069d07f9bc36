/* A member's callback closes the member while the group is closed.
   The machine:  w1 close work 1 -> refused released */
#include "probe.h"

static void CALLBACK closes(PTP_CALLBACK_INSTANCE i, void *name, PTP_WORK work)
{
    hold(name);
    CloseThreadpoolWork(work);
    puts("closed by its callback");
}

int main(void)
{
    TP_CALLBACK_ENVIRON env;
    PTP_CLEANUP_GROUP group;
    HANDLE closer;
    begin();
    InitializeThreadpoolEnvironment(&env);
    group = make_group(&env);
    SubmitThreadpoolWork(CreateThreadpoolWork(closes, "a callback", &env));
    reach(&begun, 1);
    closer = by_thread(close_members, group);
    let(1);
    reach(&over, 1);
    say_back("the close", closer);
    return end();
}
