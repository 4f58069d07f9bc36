/* tests/orders/guide.script for SPIN, and with -DMENDED guide-mended.script: a program stops, in which the callback of a timer
   submits work, while the client waits for the work and closes the group of both.

   Each entry of a history is one d_step, and prints the line that `explore` would write for it. So a trail that is played
   again is a history. Client 1 has the process number 0, client 2 has 1, and worker I has I + 1.

   Left out is what the script doesn't need. There is the default pool alone, whose minimum is 0 and whose maximum is the
   number of workers, so that neither has an effect; callback 1, the timer's, and callback 2, the work's, which are never
   pending at one time; nothing of the timer but that it expires where client 2 lets the time pass, since it is unset before
   any more passes; no refusal but that of `submit`; no want of room. No wait stalls here, since what one covers runs, and no
   routine waits: that is left out too, and SPIN tells of a state in which nobody can go on. */

#ifndef WORKERS
#define WORKERS 2
#endif

/* a callback; none before it is made, and when it is over or cancelled */
mtype = { none, pending, running };

/* client 1 has finished */
bool begun;
/* the clock */
int moment;
/* callbacks 1 and 2 */
mtype tick = none;
mtype save = none;
/* callback 2 runs, and is no longer outstanding for its object */
bool disassociated;
/* objects 1 and 2 are, by the close of their group */
bool released;
/* what the wait of client 2 covers */
bool covers_tick, covers_save;
/* the memory text */
bool in_use, freed;
/* workers that are attached and run nothing, and those that are not attached */
byte idle;
byte away = WORKERS;

#define PENDING (tick == pending || save == pending)

inline cancels(callback)
{
    if
    :: callback == pending -> callback = none
    :: else
    fi
}

/* free text takes place with the entry in which this stands */
inline frees()
{
    assert(!in_use);
    freed = true
}

active proctype client1()
{
    d_step { printf("0 c1 create-group -> made 1\n") };
    d_step { printf("0 c1 create work r1 x1 p0 normal short g1 q3 -> made 1\n") };
    d_step { printf("0 c1 create timer r2 x2 p0 normal short g1 q3 -> made 2\n") };
    d_step { begun = true; printf("0 c1 finish -> ok\n") }
}

active proctype client2()
{
    d_step { begun -> printf("0 c2 set-timer 2 -10000000 1000 0 -> queued 0 0\n") };
    d_step { moment = 10000000; tick = pending; printf("%d c2 advance 10000000 -> advanced 10000000 1 1\n", moment) };
    d_step { printf("%d c2 set-timer 2 none 0 0 -> queued 0 0\n", moment) };
#ifdef MENDED
    d_step {
        covers_tick = (tick == running);
        printf("%d c2 wait timer 2 cancel -> begun %d %d\n", moment, covers_tick, tick == pending);
        cancels(tick)
    };
    d_step { !(covers_tick && tick == running) -> covers_tick = false; printf("%d c2 end -> ended\n", moment) };
#else
    d_step {
        covers_save = (save == running && !disassociated);
        printf("%d c2 wait work 1 cancel -> begun %d %d\n", moment, covers_save, save == pending);
        cancels(save)
    };
    d_step {
        !(covers_save && save == running && !disassociated) -> covers_save = false;
        printf("%d c2 end -> ended\n", moment);
        frees()
    };
#endif
    d_step {
        covers_tick = (tick == running); covers_save = (save == running); released = true;
        printf("%d c2 close-members 1 cancel y0 -> closing %d %d 2\n",
            moment, covers_tick + covers_save, (tick == pending) + (save == pending));
        cancels(tick);
        cancels(save)
    };
    d_step {
        !(covers_tick && tick == running) && !(covers_save && save == running) ->
        printf("%d c2 end -> notice o1 r3 x1 y0\n", moment)
    };
    d_step { printf("%d c2 end -> notice o2 r3 x2 y0\n", moment) };
#ifdef MENDED
    d_step { covers_tick = false; covers_save = false; printf("%d c2 end -> ended\n", moment); frees() };
#else
    d_step { covers_tick = false; covers_save = false; printf("%d c2 end -> ended\n", moment) };
#endif
    d_step { printf("%d c2 close-group 1 -> ok\n", moment) };
    d_step { printf("%d c2 finish -> ok\n", moment) };
end_finished:
    false
}

active [WORKERS] proctype worker()
{
end_away:
    do
    /* the pool is in need: something is pending, and nobody is idle */
    :: d_step { PENDING && idle == 0 -> away--; idle++; printf("%d w%d attach -> attached 0\n", moment, _pid - 1) };
        do
        :: d_step {
                tick == pending -> idle--; tick = running;
                printf("%d w%d take -> taken 1 o2 r2 x2 plain\n", moment, _pid - 1)
            };
            if
            :: d_step { !released -> save = pending; printf("%d w%d submit 1 -> queued 2 1\n", moment, _pid - 1) }
            :: d_step { released -> printf("%d w%d submit 1 -> refused released\n", moment, _pid - 1); assert(false) }
            fi;
            d_step {
                tick = none; idle++;
                printf("%d w%d return -> returned - - - - 0 0\n", moment, _pid - 1)
            }
        /* use text takes place with the take, and ends with the return */
        :: d_step {
                save == pending -> idle--; save = running;
                printf("%d w%d take -> taken 2 o1 r1 x1 plain\n", moment, _pid - 1);
                assert(!freed); in_use = true
            };
            d_step { disassociated = true; printf("%d w%d disassociate -> ok\n", moment, _pid - 1) };
            d_step {
                save = none; disassociated = false; idle++; in_use = false;
                printf("%d w%d return -> returned - - - - 0 0\n", moment, _pid - 1)
            }
        :: d_step { !PENDING -> idle--; away++; printf("%d w%d detach -> ok\n", moment, _pid - 1) };
            break
        od
    od
}
