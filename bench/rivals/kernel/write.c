/*
 * write ROUNDS: writes ROUNDS times 8,400 records of 8 to 112 bytes into the kernel's own ring buffer of 64 pages, as
 * bench/programs/running_ring does into ours, for callgrind to count `write_rounds`. The kernel's source file is
 * compiled in from where it was unpacked (RING_SOURCE); nothing of it is kept here.
 */
#include RING_SOURCE

#define ROUND 8400

int shim_level;
unsigned long shim_warnings;
struct task_struct shim_task;
static u64 now;
static unsigned char lengths[ROUND], pool[256];

u64 shim_clock(void)
{
	return now;
}

static noinline unsigned long write_rounds(struct trace_buffer *ring, unsigned long rounds)
{
	unsigned long refused = 0;

	for (unsigned long at = 0; at < rounds * ROUND; at++) {
		unsigned length = lengths[at % ROUND];
		struct ring_buffer_event *event;

		now += 50;
		event = ring_buffer_lock_reserve(ring, length);
		if (!event) {
			refused++;
			continue;
		}
		memcpy(ring_buffer_event_data(event), pool, length);
		ring_buffer_unlock_commit(ring, event);
	}
	return refused;
}

int main(int argc, char **argv)
{
	unsigned long rounds = argc > 1 ? strtoul(argv[1], NULL, 10) : 0;
	struct trace_buffer *ring = ring_buffer_alloc(64 * BUF_PAGE_SIZE, RB_FL_OVERWRITE);
	u64 state = 12345;

	for (unsigned long at = 0; at < ROUND; at++) {
		state = state * 6364136223846793005ul + 1442695040888963407ul;
		lengths[at] = 8 + (state >> 33) % 105;
	}
	return write_rounds(ring, rounds) || shim_warnings;
}
