/* CloseThreadpoolCleanupGroupMembers(TRUE): in which order, and on which thread.
   The machine: in the order in which the members were made, by the one that closes. */
#include "probe.h"

static void CALLBACK told_where(void *name, void *closer)
{
    printf("cancel routine for %s, on %s\n", (char *)name, GetCurrentThreadId() == (DWORD)(ULONG_PTR)closer ? "the closing thread" : "another thread");
}

int main(void)
{
    TP_CALLBACK_ENVIRON env;
    PTP_CLEANUP_GROUP group = CreateThreadpoolCleanupGroup();
    begin();
    InitializeThreadpoolEnvironment(&env);
    SetThreadpoolCallbackCleanupGroup(&env, group, told_where);
    CreateThreadpoolWork(pass_work, "1, work", &env);
    CreateThreadpoolTimer(pass_timer, "2, a timer", &env);
    CreateThreadpoolWait(pass_wait, "3, a wait object", &env);
    CreateThreadpoolWork(pass_work, "4, work", &env);
    CloseThreadpoolCleanupGroupMembers(group, TRUE, (void *)(ULONG_PTR)GetCurrentThreadId());
    return end();
}
