/* Two timers that are due at one moment, set in the other order than they were made. One thread.
   The machine: by the number of the object, so the one that was made first. */
#include "probe.h"

int main(void)
{
    TP_CALLBACK_ENVIRON env;
    PTP_TIMER first, second;
    FILETIME due;
    int tries;
    begin();
    make_pool(&env, 1);
    first = CreateThreadpoolTimer(pass_timer, "made first, set second", &env);
    second = CreateThreadpoolTimer(pass_timer, "made second, set first", &env);
    for (tries = 1; tries <= 3; tries++) {
        due = moment(200);
        set_timer(second, due, 0);
        set_timer(first, due, 0);
        reach(&over, 2 * tries);
    }
    return end();
}
