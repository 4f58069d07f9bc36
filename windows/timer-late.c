/* A timer with a period of 0.2 s, in a process that is stopped for a second by another one.
   The machine: one callback for an `advance` over that time, and the old moments go on. */
#include "probe.h"

typedef LONG (NTAPI *process_call)(HANDLE);
static DWORD start;

static void CALLBACK tells(PTP_CALLBACK_INSTANCE i, void *name, PTP_TIMER timer)
{
    printf("after %lu ms\n", GetTickCount() - start);
}

int main(int count, char **words)
{
    char line[MAX_PATH + 8];
    STARTUPINFOA how = { sizeof how };
    PROCESS_INFORMATION child;
    HMODULE ntdll = GetModuleHandleA("ntdll.dll");
    begin();
    if (count > 1) {
        start = GetTickCount();
        set_timer(CreateThreadpoolTimer(tells, NULL, NULL), in_ms(200), 200);
        Sleep(2200);
        return end();
    }
    sprintf(line, "\"%s\" child", words[0]);
    CreateProcessA(NULL, line, NULL, NULL, FALSE, 0, NULL, NULL, &how, &child);
    Sleep(700);
    ((process_call)(void *)GetProcAddress(ntdll, "NtSuspendProcess"))(child.hProcess);
    Sleep(1000);
    ((process_call)(void *)GetProcAddress(ntdll, "NtResumeProcess"))(child.hProcess);
    WaitForSingleObject(child.hProcess, 5000);
    return end();
}
