/* SubmitThreadpoolWork 200,000 times.
   The machine: at most 8,192 may be under way at once, then `refused callback-limit`. */
#include "probe.h"

static void CALLBACK count_only(PTP_CALLBACK_INSTANCE i, void *context, PTP_WORK work)
{
    InterlockedIncrement(&over);
}

int main(void)
{
    PTP_WORK work;
    int count;
    begin();
    work = CreateThreadpoolWork(count_only, NULL, NULL);
    for (count = 0; count < 200000; count++)
        SubmitThreadpoolWork(work);
    WaitForThreadpoolWorkCallbacks(work, FALSE);
    printf("%ld callbacks ran\n", over);
    return end();
}
