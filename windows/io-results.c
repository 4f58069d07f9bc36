/* What the callback is told of a read: over at once, over later, cancelled by CancelIoEx, and the
   other end gone.
   The machine: what `complete-io` says, as in `c2 complete-io 3 995 0`. */
#include "probe.h"
#include "pipe.h"

int main(void)
{
    HANDLE writer, reader = make_pipe(&writer);
    struct operation reads[4];
    PTP_IO io;
    begin();
    io = CreateThreadpoolIo(reader, pass_io, "the callback", NULL);
    write_to(writer, "text");
    StartThreadpoolIo(io);
    begin_read(reader, &reads[0], "the first read");
    reach(&over, 1);
    StartThreadpoolIo(io);
    begin_read(reader, &reads[1], "the second read");
    write_to(writer, "longer text");
    reach(&over, 2);
    StartThreadpoolIo(io);
    begin_read(reader, &reads[2], "the third read");
    CancelIoEx(reader, NULL);
    reach(&over, 3);
    StartThreadpoolIo(io);
    begin_read(reader, &reads[3], "the fourth read");
    CloseHandle(writer);
    printf("%ld callbacks\n", reach(&over, 4));
    return end();
}
