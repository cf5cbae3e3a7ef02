// In which order a thread sees what others store.
//
// The proved code of a writer stores plainly; tests/c/store-order and tests/c/store-steps look in which order. On
// x86-64 every thread sees stores in that order, and makes its loads in theirs. On other machines neither holds, and a
// writer that ordered each store would pay for readers that it seldom has. So there who reads has the kernel order what
// the writer's threads do (membarrier), which costs these nothing meanwhile.
#ifndef REGION_ORDER_H
#define REGION_ORDER_H

#include <stdbool.h>

// Offers readers of this process's rings a fast order, from now on. False: it can't, or readers need none.
bool tracering_order_offer(void);

// Divides the run of each other thread into two parts, at an instant of this call: no load before the call has seen a
// store of the second part, and each load after it sees all stores of the first one. `is_offered`: the threads are
// those of processes that offered it; else the call takes some milliseconds. False: the kernel can't. May be called in
// handlers, and leaves errno as it is.
bool tracering_order(bool is_offered);

#endif
