// In which order a thread sees what others store.
#define _GNU_SOURCE
#include "order.h"

#if defined(__x86_64__)

bool tracering_order_offer(void)
{
    return false;
}

// (The compiler keeps the order of the instructions, and the processor that of what they do.)
bool tracering_order(bool is_offered)
{
    (void)is_offered;
    __atomic_signal_fence(__ATOMIC_SEQ_CST);
    return true;
}

#else

#include <errno.h>
#include <linux/membarrier.h>
#include <sys/syscall.h>
#include <unistd.h>

static bool call(int command)
{
    int before = errno;
    bool is_done = !syscall(SYS_membarrier, command, 0, 0);
    errno = before;
    return is_done;
}

bool tracering_order_offer(void)
{
    return call(MEMBARRIER_CMD_REGISTER_GLOBAL_EXPEDITED);
}

bool tracering_order(bool is_offered)
{
    return (is_offered && call(MEMBARRIER_CMD_GLOBAL_EXPEDITED)) || call(MEMBARRIER_CMD_GLOBAL);
}

#endif
