/* CloseThreadpoolCleanupGroupMembers: for which members the cancel routine is called.
   The machine: with TRUE for each that wasn't closed before and has a routine, whether it ran, is
   pending or idle, I/O objects too; with FALSE for none. */
#include "probe.h"
#include "pipe.h"

int main(void)
{
    TP_CALLBACK_ENVIRON env;
    PTP_CLEANUP_GROUP group;
    PTP_WORK ran, pending;
    HANDLE writer, reader = make_pipe(&writer), closer;
    begin();
    make_pool(&env, 1);
    group = make_group(&env);
    CreateThreadpoolWork(pass_work, "a member", &env);
    puts("FALSE");
    CloseThreadpoolCleanupGroupMembers(group, FALSE, NULL);

    ran = CreateThreadpoolWork(hold_work, "the one that runs", &env);
    CreateThreadpoolWork(pass_work, "the idle one", &env);
    pending = CreateThreadpoolWork(pass_work, "the pending one", &env);
    CloseThreadpoolWork(CreateThreadpoolWork(pass_work, "the closed one", &env));
    CreateThreadpoolIo(reader, pass_io, "the I/O object", &env);
    SetThreadpoolCallbackCleanupGroup(&env, group, NULL);
    CreateThreadpoolWork(pass_work, "the one without a routine", &env);
    SubmitThreadpoolWork(ran);
    reach(&begun, 1);
    SubmitThreadpoolWork(pending);
    puts("TRUE");
    closer = by_thread(cancel_members, group);
    let(1);
    say_back("the close", closer);
    printf("%ld ran\n", begun);
    return end();
}
