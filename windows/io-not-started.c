/* A read without StartThreadpoolIo.
   The machine:  c1 issue-io 1 -> refused not-started */
#include "probe.h"
#include "pipe.h"

int main(void)
{
    HANDLE writer, reader = make_pipe(&writer);
    struct operation read;
    begin();
    CreateThreadpoolIo(reader, pass_io, "the callback", NULL);
    begin_read(reader, &read, "a read");
    write_to(writer, "text");
    printf("%ld callbacks\n", reach(&over, 1));
    return end();
}
