/* CloseThreadpoolCleanupGroupMembers while a read of an I/O member is under way. With the word
   `cancel` behind the program's name with TRUE, else with FALSE.
   The machine:  refused operations-outstanding 1, with both */
#include "probe.h"
#include "pipe.h"

int main(int count, char **words)
{
    TP_CALLBACK_ENVIRON env;
    PTP_CLEANUP_GROUP group;
    HANDLE writer, reader = make_pipe(&writer), closer;
    struct operation read;
    PTP_IO io;
    begin();
    InitializeThreadpoolEnvironment(&env);
    group = make_group(&env);
    io = CreateThreadpoolIo(reader, pass_io, "the callback", &env);
    StartThreadpoolIo(io);
    begin_read(reader, &read, "a read");
    closer = by_thread(count > 1 ? cancel_members : close_members, group);
    Sleep(2000);
    say_back("the close", closer);
    write_to(writer, "text");
    printf("the read completes: %ld callbacks\n", reach(&over, 1));
    say_back("the close", closer);
    return end();
}
