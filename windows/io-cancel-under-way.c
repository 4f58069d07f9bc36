/* CancelThreadpoolIo when the read is under way.
   The machine:  refused not-started, and the operation keeps its callback */
#include "probe.h"
#include "pipe.h"

int main(void)
{
    HANDLE writer, reader = make_pipe(&writer);
    struct operation read;
    PTP_IO io;
    begin();
    io = CreateThreadpoolIo(reader, pass_io, "the callback", NULL);
    StartThreadpoolIo(io);
    begin_read(reader, &read, "a read");
    CancelThreadpoolIo(io);
    write_to(writer, "text");
    printf("%ld callbacks\n", reach(&over, 1));
    return end();
}
