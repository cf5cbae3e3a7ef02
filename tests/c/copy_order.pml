// A writer of a ring whose pages are in a region, and who copies that meanwhile (c/region/look.c), where stores
// pass each other: tests/c/weak-order
//
// The writer begins its two pages again and again, and stores in the order that tests/c/store-order reads from its
// code: no store releases, and no load acquires. Of the slots that are kept each cell has to be of the fill that the
// copy says; with a page all others have to be kept that aren't overwritten, and it has to be whole if there is a
// newer one; and what was committed before the copy began has to be there, unless the writer has begun that page again.
// `plant` leaves an order out, by its number in look.c, or does what is named below.
#define SLOTS 2
#define CELLS 2
#define LAST 3
#define STORES 20 // of four fills
#define FILL(slot) ((slot) * (2 + CELLS))
#define COMMIT(slot) (FILL(slot) + 1)
#define CELL(slot, cell) (FILL(slot) + 2 + (cell))

#define AFTER_HEADER 0
#define AFTER_NOTED 1
#define AFTER_FILLS 2
#define AFTER_COMMITS 3
#define AFTER_WORDS 4
#define AFTER_LOOK 5
#define FILLS_ONCE 9
#define NOT_LOOKED_AGAIN 10
#define NEWER_PAGES_STAY 11
#define COMMIT_STAYS 12
#define COMMIT_EARLY 13
#define FILL_LAST 14

#include "weak_memory.pml"

byte begun = SLOTS - 1, committed = CELLS; // the newest fill that the writer began, and its committed cells
bool is_ready;
byte plant; // what the variable PLANT says

#define STORE(word, value) store(word, value, false)

inline put_commit(fill, cells)
{
    atomic {
        STORE(COMMIT(fill % SLOTS), cells);
        committed = (fill == begun -> cells : committed)
    }
}

inline begin(fill)
{
    atomic {
        begun = fill;
        committed = 0;
        if
        :: plant != COMMIT_STAYS -> STORE(COMMIT(fill % SLOTS), 0)
        :: else
        fi
    }
    if
    :: plant != FILL_LAST -> STORE(FILL(fill % SLOTS), fill)
    :: else
    fi
}

inline put_cell(fill, cell)
{
    if
    :: plant == COMMIT_EARLY -> put_commit(fill, cell + 1)
    :: else
    fi;
    STORE(CELL(fill % SLOTS, cell), fill)
}

// A record that is begun and not ended, while one that is nested in it begins the next page: then that is committed
// after this one.
active proctype writer()
{
    byte fill = SLOTS;
    bool is_open;
    is_ready;
    do
    :: fill <= LAST ->
        begin(fill);
        put_cell(fill, 0);
        if
        :: is_open -> put_commit((fill - 1), CELLS); is_open = false
        :: else
        fi;
        put_commit(fill, 1);
        put_cell(fill, 1);
        if
        :: fill < LAST -> is_open = true
        :: put_commit(fill, CELLS)
        fi;
        if
        :: plant == FILL_LAST -> STORE(FILL(fill % SLOTS), fill)
        :: else
        fi;
        fill++
    :: else -> break
    od
}

#define ORDER(place) atomic { if :: plant != place -> since = made :: else fi }
#define LOAD(found, word) load(found, word, false)

// What the copy has of each slot.
byte fill_of[SLOTS], commit_of[SLOTS], cell_of[SLOTS * CELLS];

inline load_slot_cells(slot)
{
    LOAD(cell_of[slot * CELLS], CELL(slot, 0));
    LOAD(cell_of[slot * CELLS + 1], CELL(slot, 1))
}

// Whether a slot is to be dropped. (The order of the loads that aren't divided doesn't matter.)
inline look_again(slot)
{
    LOAD(fill, FILL(slot));
    LOAD(commit, COMMIT(slot));
    atomic {
        if
        :: plant != NOT_LOOKED_AGAIN && commit_of[slot] && (fill != fill_of[slot] || commit < commit_of[slot]) ->
            commit_of[slot] = 0;
            is_dropped = true
        :: else
        fi;
        fill = 0;
        commit = 0
    }
}

#define HOLDS(slot, cell) (commit_of[slot] <= cell || cell_of[slot * CELLS + cell] == fill_of[slot])
// A page that is kept is whole if a newer one is kept, and that is so if a newer one was noted.
#define IS_WITH_NEWER(slot, other) (!commit_of[slot] || fill_of[slot] >= (commit_of[other] -> fill_of[other] : noted) \
    || (commit_of[slot] == CELLS && commit_of[other] && fill_of[other] == fill_of[slot] + 1))
// And the page before it is kept, unless the writer has begun that slot again.
#define IS_WITH_OLDER(slot, other) (!commit_of[slot] || commit_of[other] || begun > fill_of[slot])
#define HAS(slot) (fill_of[slot] == fill_before && commit_of[slot] >= cells_before)

inline judge()
{
    assert(HOLDS(0, 0) && HOLDS(0, 1) && HOLDS(1, 0) && HOLDS(1, 1));
    assert(IS_WITH_NEWER(0, 1) && IS_WITH_NEWER(1, 0));
    assert(IS_WITH_OLDER(0, 1) && IS_WITH_OLDER(1, 0));
    assert(cells_before == 0 || begun >= fill_before + SLOTS || HAS(0) || HAS(1))
}

active proctype copier()
{
    byte newest, noted, fill_before, cells_before, fill, commit;
    bool is_dropped;
    // At first each page is whole. (If a record of the page before the newest one is open, nothing is known of it.)
    atomic {
        c_code { now.plant = atoi(getenv("PLANT")); };
        STORE(FILL(0), 0);
        STORE(COMMIT(0), CELLS);
        STORE(CELL(0, 0), 0);
        STORE(CELL(0, 1), 0);
        STORE(FILL(1), 1);
        STORE(COMMIT(1), CELLS);
        STORE(CELL(1, 0), 1);
        STORE(CELL(1, 1), 1);
        since = made;
        is_ready = true
    }
    atomic {
        fill_before = begun;
        cells_before = committed;
        ORDER(AFTER_HEADER)
    }
    LOAD(fill_of[0], FILL(0));
    LOAD(fill_of[1], FILL(1));
    ORDER(AFTER_NOTED);
    LOAD(commit_of[0], COMMIT(0));
    LOAD(commit_of[1], COMMIT(1));
    atomic {
        newest = (commit_of[0] -> fill_of[0] : 0);
        newest = (commit_of[1] && fill_of[1] > newest -> fill_of[1] : newest);
        noted = newest;
        newest = (plant == NEWER_PAGES_STAY -> LAST : newest)
    }
    if
    :: plant != FILLS_ONCE ->
        LOAD(fill_of[0], FILL(0));
        LOAD(fill_of[1], FILL(1))
    :: else
    fi;
    ORDER(AFTER_FILLS);
    LOAD(commit_of[0], COMMIT(0));
    LOAD(commit_of[1], COMMIT(1));
    atomic {
        commit_of[0] = (fill_of[0] <= newest -> commit_of[0] : 0);
        commit_of[1] = (fill_of[1] <= newest -> commit_of[1] : 0);
        ORDER(AFTER_COMMITS)
    }
    load_slot_cells(0);
    load_slot_cells(1);
    ORDER(AFTER_WORDS);
    do
    ::  is_dropped = false;
        look_again(0);
        look_again(1);
        if
        :: is_dropped -> ORDER(AFTER_LOOK)
        :: else -> break
        fi
    od;
    judge()
}
