/* Priorities, and equals among them. One thread, which is blocked while all are submitted.
   The machine: high, normal, low, and among equals in the order of the submits. */
#include "probe.h"

int main(void)
{
    static const char *const names[] = { "low 1", "normal 1", "high 1", "low 2", "normal 2", "high 2" };
    static const TP_CALLBACK_PRIORITY priorities[] = { TP_CALLBACK_PRIORITY_LOW, TP_CALLBACK_PRIORITY_NORMAL, TP_CALLBACK_PRIORITY_HIGH };
    TP_CALLBACK_ENVIRON env;
    PTP_WORK one, two;
    int at;
    begin();
    make_pool(&env, 1);
    SubmitThreadpoolWork(CreateThreadpoolWork(hold_work, "block", &env));
    reach(&begun, 1);
    for (at = 0; at < 6; at++) {
        SetThreadpoolCallbackPriority(&env, priorities[at % 3]);
        SubmitThreadpoolWork(CreateThreadpoolWork(pass_work, (void *)names[at], &env));
    }
    let(1);
    reach(&over, 7);

    puts("equals: 1 1 1 2 2 and a simple one");
    SetThreadpoolCallbackPriority(&env, TP_CALLBACK_PRIORITY_NORMAL);
    one = CreateThreadpoolWork(pass_work, "1", &env);
    two = CreateThreadpoolWork(pass_work, "2", &env);
    SubmitThreadpoolWork(CreateThreadpoolWork(hold_work, "block", &env));
    reach(&begun, 8);
    for (at = 0; at < 3; at++)
        SubmitThreadpoolWork(one);
    for (at = 0; at < 2; at++)
        SubmitThreadpoolWork(two);
    TrySubmitThreadpoolCallback(pass_simple, "a simple one", &env);
    let(1);
    reach(&over, 14);
    return end();
}
