/* CloseThreadpoolCleanupGroupMembers with a timer that is set and a wait object that is armed.
   The machine: unset and disarmed, with FALSE too; and the event keeps its signal. */
#include "probe.h"

int main(void)
{
    TP_CALLBACK_ENVIRON env;
    PTP_CLEANUP_GROUP group;
    HANDLE event = CreateEvent(NULL, FALSE, FALSE, NULL);
    PTP_WAIT wait;
    begin();
    InitializeThreadpoolEnvironment(&env);
    group = make_group(&env);
    set_timer(CreateThreadpoolTimer(pass_timer, "the timer", &env), in_ms(300), 100);
    CloseThreadpoolCleanupGroupMembers(group, FALSE, NULL);
    set_timer(CreateThreadpoolTimer(pass_timer, "another timer", &env), in_ms(300), 100);
    wait = CreateThreadpoolWait(pass_wait, "the wait object", &env);
    SetThreadpoolWait(wait, event, NULL);
    CloseThreadpoolCleanupGroupMembers(group, TRUE, NULL);
    SetEvent(event);
    Sleep(600);
    printf("%ld ran; the event is signalled: %s\n", over, now(event));
    return end();
}
