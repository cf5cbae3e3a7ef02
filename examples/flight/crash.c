// Four threads record, one of them crashes, and the newest events of all are in crash.flight.
#include "tracering_flight.h"
#include <pthread.h>
#include <unistd.h>

static volatile int *nowhere;

static void *serve(void *name)
{
    flight_name(name);
    for (unsigned id = 0; id < 1000; id++)
        TRACE("request %u took %lu ns", id, 250ul + id % 7);
    if (!strcmp(name, "worker-3"))
        *nowhere = (int)sleep(1);
    while (pause())
        continue;
    return NULL;
}

int main(void)
{
    static char names[][9] = {"worker-0", "worker-1", "worker-2", "worker-3"};
    pthread_t threads[4];
    if (flight_start(NULL) || flight_dump_on_crash("crash.flight"))
        return 1;
    for (int k = 0; k < 4; k++)
        if (pthread_create(&threads[k], NULL, serve, names[k]))
            return 1;
    return pthread_join(threads[0], NULL);
}
