// A ring for each thread, written and taken by hand, to be copied where tracering_flight.h doesn't do (for that see
// examples/flight/crash.c). Two threads record events, each in a ring of its own, and a signal's handler records its
// own between them. Nobody reads meanwhile: each ring keeps the newest events. When the program is hit by a fault, the
// handler of that dumps what the rings have to standard output, as parcels of TRACERING_HEADER + SIZE bytes each.
//
// `./tracering-lib` prints how to compile and link it; add `-lpthread`. `recorder >DUMP` hits itself by such a fault
// when all is recorded, so that it ends with status 139 (SIGSEGV); `list DUMP` and `collect <DUMP` then print what the
// files `listed` and `collected` have. `list` calls `./tracering dump`, whose first call proves the whole program; if
// TRACERING is set, the program that it names.
#define _POSIX_C_SOURCE 200809L
#include "tracering.h"

#include <pthread.h>
#include <signal.h>
#include <stdatomic.h>
#include <stdint.h>
#include <stdio.h>
#include <string.h>
#include <unistd.h>

enum { CPUS = 2, PAGES = 4, SIZE = 128, EVENTS = 100 };

static struct tracering_writer writers[CPUS];
static struct tracering_reader readers[CPUS];
// Which of the rings the thread writes.
static _Thread_local int cpu;

static void record(uint64_t moment, const char *event)
{
    // The thread goes on if an event is refused: in a handler that interrupts this very call, for example. The
    // handle counts it (`tracering_refused`); levels.c shows how no handler is refused so.
    (void)tracering_write(&writers[cpu], moment, event, strlen(event));
}

static void on_signal(int signal)
{
    (void)signal;
    record(0, "signal");
}

// Closes the page that this thread writes, so that it can be taken. In a full ring this overwrites the oldest page.
static void close_page(void)
{
    if (tracering_begin_close(&writers[cpu]) == TRACERING_DONE)
        (void)tracering_finish(&writers[cpu]);
}

// Dumps the closed pages of a ring, if its writer isn't halted in a move of the head: then takes answer MOVING, and
// pages may be left out. `take` allocates nothing and waits for nothing, so a handler may make it.
static void dump(struct tracering_reader *reader)
{
    uint8_t parcel[TRACERING_HEADER + SIZE];
    struct tracering_taken taken;
    for (int page = 0; page < PAGES; page++) {
        int32_t code = tracering_take(reader, parcel, sizeof parcel, &taken);
        // All parcels of the dump have one length: what a page leaves of it is zeros.
        if (code == TRACERING_DONE && write(STDOUT_FILENO, parcel, sizeof parcel) != (ssize_t)sizeof parcel)
            _exit(1);
        if (code != TRACERING_DONE && code != TRACERING_MOVING)
            return;
    }
}

// Of each ring the closed pages are dumped, and then the page that this thread was writing. If the fault is in a call
// on its ring, that page is left out, and closed ones may be (`dump`); so may those of a ring that another thread is in
// a call on. Of two threads that are hit, one dumps; no signal interrupts it.
static void on_fault(int signal)
{
    static atomic_flag dumped = ATOMIC_FLAG_INIT;
    if (atomic_flag_test_and_set(&dumped))
        for (;;)
            pause();
    record(0, "fault");
    for (int each = 0; each < CPUS; each++)
        dump(&readers[each]);
    close_page();
    dump(&readers[cpu]);
    _exit(128 + signal);
}

static void *work(void *given)
{
    cpu = 1;
    for (uint64_t event = 0; event < EVENTS; event++)
        record(10 * event + 5, "work");
    // `on_fault` closes only the page of the thread that it interrupts. This thread's last page has its newest events,
    // so it is closed before the thread goes; the oldest page is given up for it.
    close_page();
    return given;
}

int main(void)
{
    for (uint32_t each = 0; each < CPUS; each++)
        if (tracering_new(&writers[each], &readers[each], each, PAGES, SIZE) != TRACERING_DONE)
            return 1;
    struct sigaction fault = {.sa_handler = on_fault}, other = {.sa_handler = on_signal};
    pthread_t worker;
    sigfillset(&fault.sa_mask);
    if (sigaction(SIGSEGV, &fault, NULL) || sigaction(SIGUSR1, &other, NULL)
        || pthread_create(&worker, NULL, work, NULL))
        return 1;
    for (uint64_t event = 0; event < EVENTS; event++) {
        record(10 * event, "main");
        if (event % 20 == 0)
            raise(SIGUSR1);
    }
    pthread_join(worker, NULL);
    raise(SIGSEGV);
}
