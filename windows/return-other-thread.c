/* SetEventWhenCallbackReturns and CallbackMayRunLong by a thread that doesn't run the callback.
   The machine:  c1 on-return event 1 1 -> refused not-running;  c1 may-run-long -> the same */
#include "probe.h"

static PTP_CALLBACK_INSTANCE instance;

static void CALLBACK keeps(PTP_CALLBACK_INSTANCE i, void *name, PTP_WORK work)
{
    instance = i;
    hold(name);
}

int main(void)
{
    HANDLE event = CreateEvent(NULL, TRUE, FALSE, NULL);
    begin();
    SubmitThreadpoolWork(CreateThreadpoolWork(keeps, "a callback", NULL));
    reach(&begun, 1);
    SetEventWhenCallbackReturns(instance, event);
    printf("CallbackMayRunLong: %s\n", CallbackMayRunLong(instance) ? "TRUE" : "FALSE");
    let(1);
    reach(&over, 1);
    printf("the event was set: %s\n", now(event));
    return end();
}
