/* A model of luzhanem_durable_sync for spin: tickets, one save at a time, answers that are lost, a
 * takeover.
 *
 * What durable.c does between two moments without its mutex is one step here. THREADS threads make one
 * grant and one sync each; to the others a second sync of a thread is as the first of another thread, so
 * eight stand for every run of up to eight syncs. Threads are alike, so the model numbers them in the
 * order of their tickets. A grant and the ticket after it are one step: a grant that is in an image before
 * its ticket is drawn is only saved earlier. So an image stands for the number of tickets that were drawn
 * when it was taken.
 *
 * A save is one transaction of the database that is made only at the holder and generation it names. One
 * that we gave up, because no answer came, may be made at any later moment, or never; LATE_SAVES of them
 * at a time.
 *
 * Checked by assertions, and by spin's own search for threads that wait for ever:
 *     an answer of 0 implies that the database has an image which was taken after the ticket was
 *       drawn;
 *     no older image is put over a newer one;
 *     once another host has the channel nothing of ours is written, and that host was given all that
 *       was answered;
 *     FENCED is answered only where another host has the channel.
 * The database is one thing that keeps what it has committed: disks and replication are left to the tests.
 *
 * With SLEEPERS each thread sleeps until it is woken, may be the one that saves, and returns by itself.
 * Without, the thread that waits longest saves (no step looks at the ticket of the one that saves), and
 * the answers of all tickets are checked after each save. With PARTS a save writes only those of two parts
 * that differ from the last one, and a grant may be an undo, which puts an old value back: such a part may
 * equal the last save and not the database, which is why a failed save forgets what the database has.
 *
 * Each MUTANT_ is a fault that has to be found: tests/run.d/60-model. */
#ifndef THREADS
#define THREADS 8
#endif
#ifndef LATE_SAVES
#define LATE_SAVES 2
#endif
#define US 0
#define THEM 1

mtype = { SAVED, NOT_SAVED, FENCED };

typedef save_t {
    byte image;
    byte generation; /* counted from 1; 0: no save */
#ifdef PARTS
    byte part[2];
    bool differs[2]
#endif
}

/* The handle: tickets, under the mutex; then what the thread that saves has to itself. */
byte drawn, tried, safe;
bool busy;
#ifdef SLEEPERS
bool asleep[THREADS];
#define MAY_SAVE(id) (tried <= id)
#else
#define MAY_SAVE(id) (tried == id)
#endif
mtype answer;
save_t now;
byte generation = 1; /* of the channel, as we know it; 0: not known */
bool fenced;

/* The database: who holds the channel, its generation, and which image it has. */
bit holder;
byte db_generation = 1, db;

save_t late[LATE_SAVES];
byte given; /* the image that the other host was given */

#ifdef PARTS
byte part[2], old, saved[2], db_part[2];
bit last;
bool can_undo, known = true;
#endif

inline grant() {
#ifdef PARTS
    if
    :: last = drawn & 1; old = part[last]; part[last] = drawn + 1; can_undo = true
    :: can_undo -> part[last] = old; can_undo = false
    fi;
#endif
    drawn++
}

inline take_image() {
#ifdef PARTS
    now.part[0] = part[0];
    now.part[1] = part[1];
#endif
    now.image = drawn
}

/* After a failure nothing is known of the database. */
inline forget() {
#ifdef PARTS
#ifndef MUTANT_REMEMBERS
    known = false;
#endif
#endif
    generation = 0
}

inline compare() {
#ifdef PARTS
    now.differs[0] = !known || now.part[0] != saved[0];
    now.differs[1] = !known || now.part[1] != saved[1];
#endif
    now.generation = generation
}

/* The database makes a save, where it may. */
#ifdef MUTANT_NO_HOLDER
#define OURS true
#else
#define OURS (holder == US)
#endif
#ifdef MUTANT_NO_GENERATION
#define MAY_MAKE(s) OURS
#else
#define MAY_MAKE(s) (OURS && s.generation == db_generation)
#endif
inline make(s) {
    assert(holder == US);
    assert(s.image >= db);
#ifdef PARTS
    db_part[0] = (s.differs[0] -> s.part[0] : db_part[0]);
    db_part[1] = (s.differs[1] -> s.part[1] : db_part[1]);
    assert(db_part[0] == s.part[0] && db_part[1] == s.part[1]);
#endif
    db = s.image;
    db_generation++
}

inline note() {
#ifdef PARTS
    saved[0] = now.part[0];
    saved[1] = now.part[1];
    known = true;
#endif
    generation = db_generation;
    r = SAVED
}

inline clear(s) {
#ifdef PARTS
    s.part[0] = 0; s.part[1] = 0; s.differs[0] = 0; s.differs[1] = 0;
#endif
    s.image = 0;
    s.generation = 0
}

inline give_up(s) {
#ifdef PARTS
    s.part[0] = now.part[0]; s.part[1] = now.part[1];
    s.differs[0] = now.differs[0]; s.differs[1] = now.differs[1];
#endif
    s.image = now.image;
    s.generation = now.generation
}

/* What a ticket is answered that a save has covered. */
inline check_answer(ticket) {
    if
    :: safe >= ticket -> assert(ticket <= (holder == US -> db : given))
    :: safe < ticket && answer == FENCED -> assert(holder == THEM)
    :: else -> assert(answer == NOT_SAVED)
    fi
}

proctype thread(byte id) {
    byte covered;
    mtype r;

    atomic { drawn == id -> grant() } /* its ticket is id + 1 */
end:
    do
#ifdef SLEEPERS
    :: tried > id -> break
#ifdef MUTANT_SLEEPS_LATE
    :: tried <= id && busy -> asleep[id] = true; !asleep[id]
#else
    :: atomic { tried <= id && busy -> asleep[id] = true }; !asleep[id]
#endif
#endif
#ifdef MUTANT_NO_BUSY
    :: tried <= id ->
#else
    :: atomic { MAY_SAVE(id) && !busy -> busy = true };
#endif
#ifdef MUTANT_IMAGE_FIRST
        atomic { take_image() };
        covered = drawn;
#else
        covered = drawn;
        atomic { take_image() };
#endif
        do
        :: atomic { fenced -> r = FENCED; break }
        :: atomic { !fenced -> forget(); r = NOT_SAVED; break } /* no connection, or a look is not answered */
        :: atomic { !fenced && generation == 0 && !OURS -> fenced = true; r = FENCED; break }
        :: atomic { !fenced && generation == 0 && OURS -> generation = db_generation }
        :: !fenced && generation != 0 -> /* the save is sent */
            atomic { compare() };
            if
            :: atomic { MAY_MAKE(now) -> make(now); note(); break }
            :: atomic { !MAY_MAKE(now) -> forget() } /* 0 rows: look again */
            :: atomic { late[0].generation == 0 -> give_up(late[0]); forget(); r = NOT_SAVED; break }
            :: atomic { late[0].generation != 0 && late[LATE_SAVES - 1].generation == 0 ->
                give_up(late[LATE_SAVES - 1]); forget(); r = NOT_SAVED; break }
            fi
        od;
        atomic {
            busy = false;
#ifdef MUTANT_COVERS_LATER
            covered = drawn;
#endif
            tried = covered;
            if
            :: r == SAVED -> safe = covered
            :: else
            fi;
            answer = r;
#ifndef SLEEPERS
            for (covered : 1 .. tried) {
                check_answer(covered)
            };
#endif
            covered = 0; r = 0;
            clear(now)
        }
#ifdef SLEEPERS
#ifndef MUTANT_NO_BROADCAST
        ; /* the mutex is free again: others may draw tickets and save before this wakes them */
        atomic {
            for (covered : 0 .. THREADS - 1) {
                asleep[covered] = false
            };
            covered = 0
        }
#endif
#endif
    od;
    atomic { check_answer(id + 1) }
}

/* The server makes a save that we gave up, or finds that it may not. */
proctype server() {
end:
    do
    :: atomic {
        late[0].generation != 0 ->
        if
        :: MAY_MAKE(late[0]) -> make(late[0])
        :: !MAY_MAKE(late[0])
        fi;
        clear(late[0])
    }
    :: atomic {
        LATE_SAVES > 1 && late[LATE_SAVES - 1].generation != 0 ->
        if
        :: MAY_MAKE(late[LATE_SAVES - 1]) -> make(late[LATE_SAVES - 1])
        :: !MAY_MAKE(late[LATE_SAVES - 1])
        fi;
        clear(late[LATE_SAVES - 1])
    }
    od
}

/* Another host opens the channel. */
proctype other() {
    atomic { true -> holder = THEM; db_generation++; given = db }
}

init {
    byte i;
    atomic {
        for (i : 0 .. THREADS - 1) {
            run thread(i)
        };
        i = 0;
        run server();
        run other()
    }
}
