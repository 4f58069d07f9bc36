/* SetThreadpoolWait where the event is signalled and the timeout is at once.
   The machine:  the result `object`, and the event is taken */
#include "probe.h"

int main(void)
{
    HANDLE event = CreateEvent(NULL, FALSE, TRUE, NULL);
    FILETIME zero = file_time(0), past = moment(-100);
    PTP_WAIT wait;
    begin();
    wait = CreateThreadpoolWait(pass_wait, "timeout 0", NULL);
    SetThreadpoolWait(wait, event, &zero);
    reach(&over, 1);
    printf("the event is signalled: %s\n", now(event));
    SetEvent(event);
    wait = CreateThreadpoolWait(pass_wait, "timeout past", NULL);
    SetThreadpoolWait(wait, event, &past);
    reach(&over, 2);
    printf("the event is signalled: %s\n", now(event));
    return end();
}
