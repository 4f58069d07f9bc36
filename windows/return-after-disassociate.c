/* SetEventWhenCallbackReturns behind DisassociateCurrentThreadFromCallback.
   The machine:  returned - - - done 0 0 */
#include "probe.h"

static HANDLE event;

static void CALLBACK asks(PTP_CALLBACK_INSTANCE i, void *name, PTP_WORK work)
{
    DisassociateCurrentThreadFromCallback(i);
    SetEventWhenCallbackReturns(i, event);
    pass(name);
}

int main(void)
{
    begin();
    event = CreateEvent(NULL, TRUE, FALSE, NULL);
    SubmitThreadpoolWork(CreateThreadpoolWork(asks, "a callback", NULL));
    reach(&over, 1);
    printf("the event was set: %s\n", now(event));
    return end();
}
