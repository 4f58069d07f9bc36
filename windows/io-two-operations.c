/* Two reads, of which the second completes first, since it is cancelled by CancelIoEx; and two of
   which the first does. One thread, which is blocked until both are over.
   The machine: in the order of the announcements, so the first read first, both times. */
#include "probe.h"
#include "pipe.h"

static void ask(TP_CALLBACK_ENVIRON *env, HANDLE reader, HANDLE writer, PTP_IO io, BOOL is_second)
{
    struct operation first, second;
    LONG before = over;
    SubmitThreadpoolWork(CreateThreadpoolWork(hold_work, "block", env));
    reach(&begun, before + 1);
    StartThreadpoolIo(io);
    begin_read(reader, &first, "the first read");
    StartThreadpoolIo(io);
    begin_read(reader, &second, "the second read");
    CancelIoEx(reader, is_second ? &second.overlapped : &first.overlapped);
    printf("%s read is cancelled\n", is_second ? "the second" : "the first");
    Sleep(200);
    write_to(writer, "text");
    Sleep(200);
    let(1);
    reach(&over, before + 3);
}

int main(void)
{
    HANDLE writer, reader = make_pipe(&writer);
    TP_CALLBACK_ENVIRON env;
    PTP_IO io;
    begin();
    make_pool(&env, 1);
    io = CreateThreadpoolIo(reader, pass_io, "the callback", &env);
    ask(&env, reader, writer, io, TRUE);
    ask(&env, reader, writer, io, FALSE);
    return end();
}
