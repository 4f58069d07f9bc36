/* A callback disassociates itself and closes its own group.
   The machine:  w1 close-members 1 keep y0 -> refused own-callback */
#include "probe.h"

static void CALLBACK closes(PTP_CALLBACK_INSTANCE i, void *group, PTP_WORK work)
{
    DisassociateCurrentThreadFromCallback(i);
    InterlockedIncrement(&begun);
    CloseThreadpoolCleanupGroupMembers(group, FALSE, NULL);
    InterlockedIncrement(&over);
}

int main(void)
{
    TP_CALLBACK_ENVIRON env;
    PTP_CLEANUP_GROUP group;
    begin();
    InitializeThreadpoolEnvironment(&env);
    group = make_group(&env);
    SubmitThreadpoolWork(CreateThreadpoolWork(closes, group, &env));
    reach(&begun, 1);
    Sleep(1500);
    printf("the close is %s\n", over ? "back" : "not back after 1.5 s");
    return end();
}
