// A thread that records, and who copies the recorder's file meanwhile (c/flight/show/file_copy.c, c/flight/dump.c),
// where stores pass each other: tests/c/weak-order
//
// The thread begins two leases of its slot in one place, and after each has a record of an event whose site it puts
// into the file before. A copy has the ring first, then the leases, then the site. A lease that is copied with an even
// version that stays has to be whole; and of each record that is copied the lease and the site have to be there.
#define RECORDS 2
#define STORES 32
#define VERSION 0
#define THREAD 1
#define NAME 2
#define COUNT 3
#define TEXT 4
#define LENGTH 5
#define CELL 6
#define COMMIT 7

#define LEASE_PLAIN 1     // a lease is stored without release
#define LEASE_EARLY 2     // a lease is loaded without acquire
#define SITE_PLAIN 3      // the length of a site's text is stored without release
#define SITE_EARLY 4      // it is loaded without acquire
#define NO_ORDER 5        // the copy of the ring ends without an order
#define VERSION_IGNORED 6 // a version that changes isn't looked at

#include "weak_memory.pml"

#define PLAIN(word, value) store(word, value, false)
#define OF_LEASE(word, value) store(word, value, plant != LEASE_PLAIN)

bool is_ready;
byte plant; // what the variable PLANT says

active proctype recorder()
{
    byte record = 1;
    is_ready;
    do
    :: record <= RECORDS ->
        OF_LEASE(VERSION, 2 * record - 1);
        OF_LEASE(THREAD, record);
        OF_LEASE(NAME, record);
        OF_LEASE(COUNT, record);
        OF_LEASE(VERSION, 2 * record);
        if
        :: record == 1 ->
            PLAIN(TEXT, 1);
            store(LENGTH, 1, plant != SITE_PLAIN)
        :: else
        fi;
        PLAIN(CELL, record);
        PLAIN(COMMIT, record);
        record++
    :: else -> break
    od
}

#define LEASE(found, word) load(found, word, plant != LEASE_EARLY)

active proctype copier()
{
    byte word, committed, version, thread, name, leases, again, length, text;
    atomic {
        c_code { now.plant = atoi(getenv("PLANT")); };
        do
        :: word <= COMMIT -> PLAIN(word, 0); word++
        :: else -> break
        od;
        word = 0;
        since = made;
        is_ready = true
    }
    // The ring, in one step. (tests/c/copy_order.pml has all of them.)
    load(committed, COMMIT, false);
    atomic {
        if
        :: plant != NO_ORDER -> since = made
        :: else
        fi
    }
    LEASE(version, VERSION);
    LEASE(thread, THREAD);
    LEASE(name, NAME);
    LEASE(leases, COUNT);
    LEASE(again, VERSION);
    load(length, LENGTH, plant != SITE_EARLY);
    load(text, TEXT, false);
    // (A version that is odd says which lease is changing: that one has no record yet.)
    if
    :: version % 2 == 0 && (version == again || plant == VERSION_IGNORED) ->
        assert(thread == version / 2 && name == thread && leases == thread);
        assert(leases >= committed)
    :: else
    fi;
    assert(committed == 0 || length == 1);
    assert(length == 0 || text == 1)
}
