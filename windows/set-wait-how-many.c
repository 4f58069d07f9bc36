/* How many of three wait objects one signal releases: of an automatic event, a manual one, and a
   semaphore that is raised by 2.
   The machine:  1, 3, 2 */
#include "probe.h"

static void CALLBACK counts(PTP_CALLBACK_INSTANCE i, void *name, PTP_WAIT w, TP_WAIT_RESULT result)
{
    InterlockedIncrement(&over);
}

static void arm_three(HANDLE object)
{
    int at;
    over = 0;
    for (at = 0; at < 3; at++)
        SetThreadpoolWait(CreateThreadpoolWait(counts, NULL, NULL), object, NULL);
    Sleep(100);
}

int main(void)
{
    HANDLE automatic = CreateEvent(NULL, FALSE, FALSE, NULL), manual = CreateEvent(NULL, TRUE, FALSE, NULL);
    HANDLE semaphore = CreateSemaphore(NULL, 0, 10, NULL);
    begin();
    arm_three(automatic);
    SetEvent(automatic);
    Sleep(200);
    printf("an automatic event: %ld\n", over);
    arm_three(manual);
    SetEvent(manual);
    Sleep(200);
    printf("a manual event: %ld\n", over);
    arm_three(semaphore);
    ReleaseSemaphore(semaphore, 2, NULL);
    Sleep(200);
    printf("a semaphore, by 2: %ld\n", over);
    return end();
}
