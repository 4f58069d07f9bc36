/* CancelThreadpoolIo without an announcement; then a read that is announced.
   The machine:  c1 cancel-io 1 -> refused not-started, and nothing else comes of it */
#include "probe.h"
#include "pipe.h"

int main(void)
{
    HANDLE writer, reader = make_pipe(&writer);
    struct operation read;
    PTP_IO io;
    begin();
    io = CreateThreadpoolIo(reader, pass_io, "the callback", NULL);
    CancelThreadpoolIo(io);
    StartThreadpoolIo(io);
    begin_read(reader, &read, "a read");
    write_to(writer, "text");
    printf("%ld callbacks\n", reach(&over, 1));
    return end();
}
