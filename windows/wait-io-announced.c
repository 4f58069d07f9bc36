/* WaitForThreadpoolIoCallbacks(FALSE) for an announcement, and for a read that is under way.
   The machine:  begun 1 0, and ended once it is cancelled, or once its callback is over */
#include "probe.h"
#include "pipe.h"

int main(void)
{
    HANDLE writer, reader = make_pipe(&writer), waiter;
    PTP_IO io;
    struct operation read;
    begin();
    io = CreateThreadpoolIo(reader, pass_io, "the callback", NULL);
    StartThreadpoolIo(io);
    waiter = by_thread(wait_io, io);
    say_back("the wait for an announcement", waiter);
    CancelThreadpoolIo(io);
    say_back("the wait, when it is taken back", waiter);
    StartThreadpoolIo(io);
    begin_read(reader, &read, "a read");
    waiter = by_thread(wait_io, io);
    say_back("the wait for a read under way", waiter);
    write_to(writer, "text");
    reach(&over, 1);
    say_back("the wait, when it is over", waiter);
    return end();
}
