/* SetThreadpoolTimer to a moment that is past, or to 0, and then a submit. One thread, blocked.
   The machine: the timer's callback is made in the call, so it comes first. */
#include "probe.h"

static void ask(TP_CALLBACK_ENVIRON *env, const char *what, FILETIME due)
{
    LONG before = over;
    SubmitThreadpoolWork(CreateThreadpoolWork(hold_work, "block", env));
    reach(&begun, before + 1);
    puts(what);
    set_timer(CreateThreadpoolTimer(pass_timer, "the timer", env), due, 0);
    SubmitThreadpoolWork(CreateThreadpoolWork(pass_work, "the work", env));
    Sleep(100);
    let(1);
    reach(&over, before + 3);
}

int main(void)
{
    TP_CALLBACK_ENVIRON env;
    begin();
    make_pool(&env, 1);
    ask(&env, "a moment that is past", moment(-100));
    ask(&env, "0", in_ms(0));
    return end();
}
