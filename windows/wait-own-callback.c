/* WaitForThreadpoolWorkCallbacks in a callback of the object.
   The machine:  w1 wait work 1 keep -> refused own-callback */
#include "probe.h"

static void CALLBACK waits(PTP_CALLBACK_INSTANCE i, void *name, PTP_WORK work)
{
    InterlockedIncrement(&begun);
    WaitForThreadpoolWorkCallbacks(work, name != NULL);
    InterlockedIncrement(&over);
}

int main(void)
{
    begin();
    SubmitThreadpoolWork(CreateThreadpoolWork(waits, NULL, NULL));
    reach(&begun, 1);
    Sleep(1500);
    printf("FALSE: the callback is %s\n", over == 1 ? "over" : "not over after 1.5 s");
    SubmitThreadpoolWork(CreateThreadpoolWork(waits, "TRUE", NULL));
    reach(&begun, 2);
    Sleep(1500);
    printf("TRUE: %ld of the two are over\n", over);
    return end();
}
