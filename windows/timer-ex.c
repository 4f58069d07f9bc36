/* SetThreadpoolTimerEx: what it answers of a timer that is new, set, and expired.
   The machine:  was no, was yes, was no */
#include "probe.h"

typedef BOOL (WINAPI *set_call)(PTP_TIMER, FILETIME *, DWORD, DWORD);

int main(void)
{
    set_call set = (set_call)(void *)GetProcAddress(GetModuleHandleA("kernel32.dll"), "SetThreadpoolTimerEx");
    PTP_TIMER timer;
    FILETIME due = in_ms(300);
    begin();
    if (!set) {
        puts("SetThreadpoolTimerEx is not there");
        return end();
    }
    timer = CreateThreadpoolTimer(pass_timer, "the timer", NULL);
    printf("new: %d\n", set(timer, &due, 0, 0));
    printf("set: %d\n", set(timer, &due, 0, 0));
    reach(&over, 1);
    printf("expired: %d\n", set(timer, NULL, 0, 0));
    return end();
}
