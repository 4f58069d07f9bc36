/* CancelThreadpoolIo beside an earlier read, and for a read that was over at once while completions
   are skipped.
   The machine:  c1 cancel-io 1 -> cancelled 2, and the earlier read keeps its callback */
#include "probe.h"
#include "pipe.h"

int main(void)
{
    HANDLE writer, reader = make_pipe(&writer);
    struct operation read, skipped;
    PTP_IO io;
    begin();
    io = CreateThreadpoolIo(reader, pass_io, "the callback", NULL);
    StartThreadpoolIo(io);
    begin_read(reader, &read, "the earlier read");
    StartThreadpoolIo(io);
    CancelThreadpoolIo(io);
    write_to(writer, "text");
    printf("beside an earlier read: %ld callbacks\n", reach(&over, 1));

    printf("completions are skipped: %s\n", SetFileCompletionNotificationModes(reader, FILE_SKIP_COMPLETION_PORT_ON_SUCCESS) ? "TRUE" : "FALSE");
    write_to(writer, "text");
    StartThreadpoolIo(io);
    begin_read(reader, &skipped, "the read");
    CancelThreadpoolIo(io);
    printf("skipped: %ld callbacks more\n", reach(&over, 2) - 1);
    return end();
}
