/* tests/orders/own-lock.script for SPIN, and with -DMENDED own-lock-given-back.script: a client waits for a callback that
   wants the section which the client holds.

   Each entry of a history is one d_step, and prints the line that `explore` would write for it. So a trail that is played
   again is a history. Client 1 has the process number 0, client 2 has 1, and worker I has I + 1.

   Left out is what the script doesn't need. There is the default pool alone, whose minimum is 0 and whose maximum is the
   number of workers, so that neither has an effect; one callback; a lock that nobody takes twice; no clock, no refusal, no
   want of room. */

#ifndef WORKERS
#define WORKERS 2
#endif

/* the owner of the lock where nobody has it: client 1 never takes it */
#define FREE 0

/* a callback; none before it is made, and when it is over */
mtype = { none, pending, running };
/* a client */
mtype = { plays, acquires, waits, finished };

/* client 1 has finished */
bool begun;
byte owner = FREE;
mtype callback = none;
/* it runs, and has begun a wait for the lock */
bool callback_acquires;
mtype c2 = plays;
/* the wait of client 2 covers the callback */
bool covered;
/* workers that are attached and run nothing, and those that are not attached */
byte idle;
byte away = WORKERS;

/* whose `end` would be a look; who waits for the lock doesn't have it */
#define C2_LOOKS ((c2 == acquires && owner != FREE) || (c2 == waits && covered && callback != none))
#define CALLBACK_LOOKS (callback_acquires && owner != FREE)

/* when nobody can go on */
#define STALLED ((c2 == finished || C2_LOOKS) && (callback != running || CALLBACK_LOOKS) && \
    (callback != pending || idle + away == 0))

active proctype client1()
{
    d_step { printf("0 c1 create-lock section free -> made 1\n") };
    d_step { printf("0 c1 create work r1 x0 p0 normal short g0 q0 -> made 1\n") };
    d_step { begun = true; printf("0 c1 finish -> ok\n") }
}

inline gives_back()
{
    d_step { owner = FREE; printf("0 c2 release-lock section 1 -> ok\n") }
}

inline waits_for_work()
{
    d_step {
        c2 = waits; covered = (callback != none);
        printf("0 c2 wait work 1 keep -> begun %d 0\n", covered)
    };
    if
    :: d_step { !C2_LOOKS -> c2 = plays; covered = false; printf("0 c2 end -> ended\n") }
    :: d_step { C2_LOOKS && STALLED -> printf("0 c2 end -> stalled\n"); assert(false) }
    fi
}

active proctype client2()
{
    d_step { begun -> c2 = acquires; printf("0 c2 acquire 1 -> ok\n") };
    if
    :: d_step { !C2_LOOKS -> c2 = plays; owner = _pid; printf("0 c2 end -> ended\n") }
    :: d_step { C2_LOOKS && STALLED -> printf("0 c2 end -> stalled\n"); assert(false) }
    fi;
    d_step { callback = pending; printf("0 c2 submit 1 -> queued 1 1\n") };
#ifdef MENDED
    gives_back();
    waits_for_work();
#else
    waits_for_work();
    gives_back();
#endif
    d_step { c2 = finished; printf("0 c2 finish -> ok\n") };
end_finished:
    false
}

active [WORKERS] proctype worker()
{
end_away:
    do
    /* the pool is in need: something is pending, and nobody is idle */
    :: d_step { callback == pending && idle == 0 -> away--; idle++; printf("0 w%d attach -> attached 0\n", _pid - 1) };
        do
        :: d_step {
                callback == pending -> idle--; callback = running;
                printf("0 w%d take -> taken 1 o1 r1 x0 plain\n", _pid - 1)
            };
            d_step { callback_acquires = true; printf("0 w%d acquire 1 -> ok\n", _pid - 1) };
            if
            :: d_step {
                    !CALLBACK_LOOKS -> callback_acquires = false; owner = _pid;
                    printf("0 w%d end -> ended\n", _pid - 1)
                }
            :: d_step { CALLBACK_LOOKS && STALLED -> printf("0 w%d end -> stalled\n", _pid - 1); assert(false) }
            fi;
            d_step { owner = FREE; printf("0 w%d release-lock section 1 -> ok\n", _pid - 1) };
            d_step { callback = none; idle++; printf("0 w%d return -> returned - - - - 0 0\n", _pid - 1) }
        :: d_step { callback != pending -> idle--; away++; printf("0 w%d detach -> ok\n", _pid - 1) };
            break
        od
    od
}
