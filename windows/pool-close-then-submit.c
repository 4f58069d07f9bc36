/* CloseThreadpool, and then a submit for an object of the pool. With the word `timer` or `wait`
   behind the program's name a timer that was set, or a wait object that was armed, in its place.
   The machine: objects of a closed pool go on. */
#include "probe.h"

int main(int count, char **words)
{
    TP_CALLBACK_ENVIRON env;
    HANDLE event = CreateEvent(NULL, FALSE, FALSE, NULL);
    PTP_POOL pool;
    PTP_WORK work;
    PTP_WAIT wait;
    begin();
    pool = make_pool(&env, 1);
    work = CreateThreadpoolWork(hold_work, "one that was submitted before", &env);
    SubmitThreadpoolWork(work);
    SubmitThreadpoolWork(work);
    if (count > 1 && words[1][0] == 't')
        set_timer(CreateThreadpoolTimer(pass_timer, "the timer", &env), in_ms(300), 0);
    wait = CreateThreadpoolWait(pass_wait, "the wait object", &env);
    if (count > 1 && words[1][0] == 'w')
        SetThreadpoolWait(wait, event, NULL);
    CloseThreadpool(pool);
    let(2);
    printf("%ld of 2 ran behind the close\n", reach(&over, 2));
    if (count == 1)
        SubmitThreadpoolWork(work);
    SetEvent(event);
    let(1);
    Sleep(500);
    printf("%ld ran\n", over - 2);
    return end();
}
