// Four threads record, and the process is killed. The newest events of all are in killed.flight, and nothing had to be
// called.
#define _POSIX_C_SOURCE 200809L
#include "tracering_flight.h"
#include <pthread.h>
#include <signal.h>
#include <unistd.h>

static void *serve(void *name)
{
    flight_name(name);
    for (unsigned id = 0; id < 1000; id++)
        TRACE("request %u took %lu ns", id, 250ul + id % 7);
    return NULL;
}

int main(void)
{
    static char names[][9] = {"worker-0", "worker-1", "worker-2", "worker-3"};
    struct flight_config config = {.file = "killed.flight"};
    pthread_t threads[4];
    if (flight_start(&config))
        return 1;
    for (int k = 0; k < 4; k++)
        if (pthread_create(&threads[k], NULL, serve, names[k]))
            return 1;
    for (int k = 0; k < 4; k++)
        pthread_join(threads[k], NULL);
    return kill(getpid(), SIGKILL);
}
