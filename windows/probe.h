/* What the programs of this folder share. Each of them is one file, and asks one thing of the
   thread pool that it runs on. */
#ifndef _WIN32_WINNT
#define _WIN32_WINNT 0x0602
#endif
#include <windows.h>
#include <stdio.h>

#define SHARED static __inline

/* Callbacks that are held wait here, until `let` lets so many of them go. */
static HANDLE gate;
/* How many callbacks have begun, and how many are over. */
static volatile LONG begun, over;

SHARED void begin(void)
{
    setvbuf(stdout, NULL, _IONBF, 0);
    gate = CreateSemaphore(NULL, 0, 1000000, NULL);
}

/* Ends the process, whatever hangs in it. */
SHARED int end(void)
{
    ExitProcess(0);
    return 0;
}

/* What a callback does that is held. */
SHARED void hold(const char *name)
{
    printf("%s begins\n", name);
    InterlockedIncrement(&begun);
    WaitForSingleObject(gate, 5000);
    printf("%s returns\n", name);
    InterlockedIncrement(&over);
}

/* What a callback does that isn't. */
SHARED void pass(const char *name)
{
    printf("%s runs\n", name);
    InterlockedIncrement(&begun);
    InterlockedIncrement(&over);
}

SHARED void let(LONG count)
{
    ReleaseSemaphore(gate, count, NULL);
}

/* Waits until a count has come so far, for a second at most; then for a moment more. */
SHARED LONG reach(volatile LONG *count, LONG value)
{
    int tries;
    for (tries = 0; tries < 100 && *count < value; tries++)
        Sleep(10);
    Sleep(50);
    return *count;
}

/* Submits a work object whose callbacks are held, one after another, as long as one more begins. */
SHARED void submit_one_by_one(PTP_WORK work, LONG count)
{
    LONG at, tries;
    for (at = 1; at <= count; at++) {
        LONG wanted = begun + 1;
        SubmitThreadpoolWork(work);
        for (tries = 0; tries < 1000 && begun < wanted; tries++)
            Sleep(1);
    }
}

/* Callbacks. The context is the name that is printed. */
SHARED void CALLBACK hold_work(PTP_CALLBACK_INSTANCE i, void *name, PTP_WORK w) { hold(name); }
SHARED void CALLBACK pass_work(PTP_CALLBACK_INSTANCE i, void *name, PTP_WORK w) { pass(name); }
SHARED void CALLBACK hold_timer(PTP_CALLBACK_INSTANCE i, void *name, PTP_TIMER t) { hold(name); }
SHARED void CALLBACK pass_timer(PTP_CALLBACK_INSTANCE i, void *name, PTP_TIMER t) { pass(name); }
SHARED void CALLBACK hold_simple(PTP_CALLBACK_INSTANCE i, void *name) { hold(name); }
SHARED void CALLBACK pass_simple(PTP_CALLBACK_INSTANCE i, void *name) { pass(name); }
SHARED void CALLBACK pass_wait(PTP_CALLBACK_INSTANCE i, void *name, PTP_WAIT w, TP_WAIT_RESULT result)
{
    printf("%s runs: %s\n", (char *)name, result == WAIT_OBJECT_0 ? "object" : "timeout");
    InterlockedIncrement(&begun);
    InterlockedIncrement(&over);
}

/* A cancel routine: the context of the object, and that of the close. */
SHARED void CALLBACK told(void *name, void *cleanup)
{
    printf("cancel routine for %s\n", (char *)name);
}

/* Calls that may block, each by a thread of its own. */
SHARED DWORD WINAPI wait_work(void *work) { WaitForThreadpoolWorkCallbacks(work, FALSE); return 0; }
SHARED DWORD WINAPI cancel_work(void *work) { WaitForThreadpoolWorkCallbacks(work, TRUE); return 0; }
SHARED DWORD WINAPI close_members(void *group) { CloseThreadpoolCleanupGroupMembers(group, FALSE, NULL); return 0; }
SHARED DWORD WINAPI cancel_members(void *group) { CloseThreadpoolCleanupGroupMembers(group, TRUE, NULL); return 0; }

SHARED HANDLE by_thread(LPTHREAD_START_ROUTINE call, void *argument)
{
    HANDLE thread = CreateThread(NULL, 0, call, argument, 0, NULL);
    Sleep(100);
    return thread;
}

/* Says whether such a call comes back within 0.3 s. */
SHARED BOOL say_back(const char *call, HANDLE thread)
{
    BOOL is_back = WaitForSingleObject(thread, 300) == WAIT_OBJECT_0;
    printf("%s: %s\n", call, is_back ? "back" : "not back");
    return is_back;
}

/* A pool of so many threads at most, in a fresh environment. */
SHARED PTP_POOL make_pool(TP_CALLBACK_ENVIRON *env, DWORD maximum)
{
    PTP_POOL pool = CreateThreadpool(NULL);
    SetThreadpoolThreadMaximum(pool, maximum);
    InitializeThreadpoolEnvironment(env);
    SetThreadpoolCallbackPool(env, pool);
    return pool;
}

/* A group with the cancel routine `told`, in an environment. */
SHARED PTP_CLEANUP_GROUP make_group(TP_CALLBACK_ENVIRON *env)
{
    PTP_CLEANUP_GROUP group = CreateThreadpoolCleanupGroup();
    SetThreadpoolCallbackCleanupGroup(env, group, told);
    return group;
}

SHARED FILETIME file_time(LONGLONG ticks)
{
    LARGE_INTEGER number;
    FILETIME time;
    number.QuadPart = ticks;
    time.dwLowDateTime = number.LowPart;
    time.dwHighDateTime = (DWORD)number.HighPart;
    return time;
}

/* So many milliseconds from now, and a moment of the system's clock, as many milliseconds from now. */
SHARED FILETIME in_ms(LONGLONG ms) { return file_time(-ms * 10000); }
SHARED FILETIME moment(LONGLONG ms)
{
    FILETIME now;
    LARGE_INTEGER number;
    GetSystemTimeAsFileTime(&now);
    number.LowPart = now.dwLowDateTime;
    number.HighPart = (LONG)now.dwHighDateTime;
    return file_time(number.QuadPart + ms * 10000);
}

SHARED void set_timer(PTP_TIMER timer, FILETIME due, DWORD period)
{
    SetThreadpoolTimer(timer, &due, period, 0);
}

/* Whether an event, a semaphore or a mutex can be had now. It is had, where it can. */
SHARED const char *now(HANDLE object)
{
    return WaitForSingleObject(object, 0) == WAIT_OBJECT_0 ? "yes" : "no";
}
