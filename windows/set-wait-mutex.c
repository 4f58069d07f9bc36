/* SetThreadpoolWait on a mutex.
   The machine:  refused not-waitable */
#include "probe.h"

int main(void)
{
    HANDLE mutex = CreateMutex(NULL, FALSE, NULL);
    begin();
    SetThreadpoolWait(CreateThreadpoolWait(pass_wait, "the wait object", NULL), mutex, NULL);
    reach(&over, 1);
    printf("the mutex can be had: %s\n", WaitForSingleObject(mutex, 300) == WAIT_TIMEOUT ? "no" : "yes");
    return end();
}
