/* 130 wait objects on one automatic event, and then three on another one: which one each signal releases.
   The machine: in the order of arming. */
#include "probe.h"

static void CALLBACK tells(PTP_CALLBACK_INSTANCE i, void *number, PTP_WAIT w, TP_WAIT_RESULT result)
{
    printf("%d ", (int)(ULONG_PTR)number);
    InterlockedIncrement(&over);
}

static void ask(int count)
{
    HANDLE event = CreateEvent(NULL, FALSE, FALSE, NULL);
    TP_CALLBACK_ENVIRON env;
    int at;
    make_pool(&env, 1);
    over = 0;
    for (at = 1; at <= count; at++)
        SetThreadpoolWait(CreateThreadpoolWait(tells, (void *)(ULONG_PTR)at, &env), event, NULL);
    Sleep(200);
    for (at = 1; at <= count; at++) {
        SetEvent(event);
        while (over < at)
            Sleep(1);
    }
    puts("");
}

int main(void)
{
    begin();
    ask(130);
    ask(3);
    return end();
}
