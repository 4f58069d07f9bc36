/* WaitForThreadpoolIoCallbacks(TRUE) while a read is under way.
   The machine:  begun 0 0, ended;  the read completes later, and its callback runs */
#include "probe.h"
#include "pipe.h"

int main(void)
{
    HANDLE writer, reader = make_pipe(&writer);
    PTP_IO io;
    struct operation read;
    begin();
    io = CreateThreadpoolIo(reader, pass_io, "the callback", NULL);
    StartThreadpoolIo(io);
    begin_read(reader, &read, "a read");
    say_back("the wait", by_thread(cancel_io, io));
    write_to(writer, "text");
    printf("the read completes: %ld callbacks\n", reach(&over, 1));
    return end();
}
