/* tests/orders/own-event.script for SPIN, and with -DMENDED own-event-on-return.script: a callback sets an event and goes on,
   and the client that waits for the event frees what the callback uses.

   Each entry of a history is one d_step, and prints the line that `explore` would write for it. So a trail that is played
   again is a history. Client 1 has the process number 0, client 2 has 1, and worker I has I + 1.

   Left out is what the script doesn't need. There is the default pool alone, whose minimum is 0 and whose maximum is the
   number of workers, so that neither has an effect; one callback; an event that nobody resets, and on which nothing is armed;
   no clock, no refusal, no want of room. */

#ifndef WORKERS
#define WORKERS 2
#endif

/* a callback; none before it is made, and when it is over */
mtype = { none, pending, running };
/* a client */
mtype = { plays, acquires, finished };

/* client 1 has finished */
bool begun;
/* the event is signalled */
bool over;
mtype callback = none;
mtype c2 = plays;
/* the memory ctx */
bool in_use, freed;
/* workers that are attached and run nothing, and those that are not attached */
byte idle;
byte away = WORKERS;

/* whether the client's `end` would be a look */
#define C2_LOOKS (c2 == acquires && !over)

/* when nobody can go on; a callback that runs never waits */
#define STALLED ((c2 == finished || C2_LOOKS) && callback != running && (callback != pending || idle + away == 0))

active proctype client1()
{
    d_step { printf("0 c1 create-event manual clear -> made 1\n") };
    d_step { printf("0 c1 create work r1 x0 p0 normal short g0 q0 -> made 1\n") };
    d_step { begun = true; printf("0 c1 finish -> ok\n") }
}

active proctype client2()
{
    d_step { begun -> callback = pending; printf("0 c2 submit 1 -> queued 1 1\n") };
    d_step { c2 = acquires; printf("0 c2 acquire 1 -> ok\n") };
    if
    /* free ctx takes place as the wait ends */
    :: d_step { !C2_LOOKS -> c2 = plays; printf("0 c2 end -> ended\n"); assert(!in_use); freed = true }
    :: d_step { C2_LOOKS && STALLED -> printf("0 c2 end -> stalled\n"); assert(false) }
    fi;
    d_step { c2 = finished; printf("0 c2 finish -> ok\n") };
end_finished:
    false
}

active [WORKERS] proctype worker()
{
end_away:
    do
    /* the pool is in need: something is pending, and nobody is idle */
    :: d_step { callback == pending && idle == 0 -> away--; idle++; printf("0 w%d attach -> attached 0\n", _pid - 1) };
        do
        /* use ctx takes place with the take, and ends with the return */
        :: d_step {
                callback == pending -> idle--; callback = running;
                printf("0 w%d take -> taken 1 o1 r1 x0 plain\n", _pid - 1);
                assert(!freed); in_use = true
            };
#ifdef MENDED
            d_step { printf("0 w%d on-return event 1 1 -> ok\n", _pid - 1) };
            d_step {
                callback = none; idle++; over = true; in_use = false;
                printf("0 w%d return -> returned - - - done 0 0\n", _pid - 1)
            }
#else
            d_step { over = true; printf("0 w%d set-event 1 -> queued 0 0\n", _pid - 1) };
            d_step {
                callback = none; idle++; in_use = false;
                printf("0 w%d return -> returned - - - - 0 0\n", _pid - 1)
            }
#endif
        :: d_step { callback != pending -> idle--; away++; printf("0 w%d detach -> ok\n", _pid - 1) };
            break
        od
    od
}
