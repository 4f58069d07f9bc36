/* The priority of an environment is changed once an object was made with it. One thread.
   The machine: no effect on the object, so `first` begins first. */
#include "probe.h"

int main(void)
{
    TP_CALLBACK_ENVIRON env;
    PTP_WORK block, first, second;
    begin();
    make_pool(&env, 1);
    block = CreateThreadpoolWork(hold_work, "block", &env);
    first = CreateThreadpoolWork(pass_work, "first, normal", &env);
    second = CreateThreadpoolWork(pass_work, "second, normal", &env);
    SetThreadpoolCallbackPriority(&env, TP_CALLBACK_PRIORITY_LOW);
    SubmitThreadpoolWork(block);
    reach(&begun, 1);
    SubmitThreadpoolWork(first);
    SubmitThreadpoolWork(CreateThreadpoolWork(pass_work, "third, low", &env));
    SubmitThreadpoolWork(second);
    let(1);
    reach(&over, 4);
    return end();
}
