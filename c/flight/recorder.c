// The flight recorder: events, start and stop. c/include/tracering_flight.h says what each call does, recorder.h how
// the parts work together.
//
// TRACE, flight_dump, flight_name and the handlers keep to what a signal's handler may do: they take no memory and no
// lock, and errno is as it was. What no handler of the same thread may interrupt runs with all signals blocked.
#define _GNU_SOURCE
#include "recorder.h"

#include <sys/mman.h>

enum {
    STOP_WAIT_MS = 5000, // how long flight_stop waits for threads
    ID_SIZE = 4,         // of an event's site
    LONGEST_EVENT = ID_SIZE + FLIGHT_ARGUMENTS * (2 + FLIGHT_TEXT)
};

struct recorder flight_recorder;
struct wiped flight_wiped;
_Thread_local __attribute__((tls_model("initial-exec"))) struct mine flight_mine;
static uint32_t last_running;
pthread_mutex_t flight_lock = PTHREAD_MUTEX_INITIALIZER;
static pthread_once_t once = PTHREAD_ONCE_INIT;
static pthread_key_t key;
static int no_key; // why there is none
// What the recorder that runs was started with, or that of the parent, of which this process is a forked child.
static struct flight_config given_config;
static char given_path[PATH_MAX];
static bool is_of_parent;
// The signals that a thread which forks had blocked, and the recorder that ran then.
static _Thread_local __attribute__((tls_model("initial-exec"))) sigset_t unforked;
static _Thread_local __attribute__((tls_model("initial-exec"))) uint32_t forked;

// ---- Events.

static void forget_slot(void)
{
    flight_mine.slot = flight_mine.named = NULL;
    flight_mine.running = 0;
}

// Gets a slot of this recorder for this thread, unless a handler has got it one meanwhile.
static struct slot *get_slot(uint32_t number)
{
    sigset_t signals;
    block_signals(&signals);
    bool has_slot = flight_mine.running == number;
    struct slot *slot = has_slot ? flight_mine.named : flight_claim();
    if (slot && !has_slot && pthread_setspecific(key, slot)) {
        flight_hand_back(slot); // since this thread's end wouldn't
        slot = NULL;
    }
    if (slot && !has_slot) {
        flight_begin_lease(slot);
        flight_mine.slot = flight_recorder.cpus ? NULL : slot;
        flight_mine.named = slot;
        flight_mine.running = number;
    }
    unblock_signals(&signals);
    return slot;
}

// The slot of a thread that had none of this recorder. If there is none, its event is counted. If rings are those of
// CPUs, the slot only names the thread.
static __attribute__((noinline, cold)) struct slot *enter(void)
{
    int before = errno;
    uint32_t number = load(&flight_running);
    if (!number) {
        forget_slot();
        return NULL;
    }
    flight_hide();
    struct slot *slot = flight_may_claim(number) ? get_slot(number) : NULL;
    if (!slot && !flight_recorder.cpus)
        flight_count_without_ring();
    flight_show();
    errno = before;
    return flight_recorder.cpus ? NULL : slot;
}

static inline struct slot *own_slot(void)
{
    return flight_mine.running == __atomic_load_n(&flight_running, __ATOMIC_ACQUIRE) ? flight_mine.slot : enter();
}

static inline uint32_t id_of(const struct flight_site *site)
{
    return __atomic_load_n(&site->id, __ATOMIC_ACQUIRE);
}

// Writes an event to the first ring of a slot that isn't in a call. False: it is refused.
static inline bool write_event(struct slot *slot, const uint8_t *event, size_t len)
{
    struct tracering_writer *ring = slot->rings;
    for (uint32_t level = 1; ring->in_call && level < flight_recorder.config.levels; level++)
        ring++;
    return __builtin_expect(tracering_write(ring, flight_moment(), event, len) == TRACERING_DONE, true);
}

// Writes an event to a ring of the CPU, with the number of the calling thread behind the site's.
static __attribute__((noinline)) void record_on_cpu(const struct flight_site *site, const uint8_t *event, size_t len)
{
    uint8_t whole[LONGEST_EVENT + sizeof(uint32_t)];
    bool is_nested;
    if (!flight_mine.thread)
        flight_mine.thread = this_thread();
    struct slot *slot = flight_take_cpu(&is_nested);
    if (!slot) {
        flight_count_without_ring();
        return;
    }
    uint32_t head[] = {id_of(site) | 1u << EVENT_HAS_THREAD, flight_mine.thread};
    size_t values = (len < LONGEST_EVENT ? len : LONGEST_EVENT) - ID_SIZE;
    memcpy(whole, head, sizeof head);
    memcpy(whole + sizeof head, event + ID_SIZE, values);
    if (!write_event(slot, whole, sizeof head + values))
        flight_note_refused(slot);
    if (!is_nested)
        flight_give_cpu(slot);
}

void flight_record(const struct flight_site *site, uint8_t *event, size_t len)
{
    struct slot *slot = own_slot();
    if (__builtin_expect(!slot, false)) {
        if (flight_recorder.cpus && load(&flight_running))
            record_on_cpu(site, event, len);
        return;
    }
    uint32_t id = id_of(site);
    memcpy(event, &id, sizeof id);
    // (The slot is looked up once more, so that no event pays for keeping it.)
    if (!write_event(slot, event, len))
        flight_note_refused(flight_mine.slot);
}

// Gives back the slot of a thread that ends.
static void leave(void *given)
{
    sigset_t signals;
    struct slot *slot = given;
    block_signals(&signals);
    if (go_in() == slot) {
        forget_slot();
        flight_hand_back(slot);
    }
    go_out();
    unblock_signals(&signals);
}

int flight_name(const char *name)
{
    if (!name)
        return EINVAL;
    sigset_t signals;
    int before = errno;
    block_signals(&signals);
    flight_hide();
    size_t len = strnlen(name, NAME_SIZE - 1);
    memset(flight_mine.name, 0, sizeof flight_mine.name);
    memcpy(flight_mine.name, name, len);
    struct slot *slot = go_in();
    if (slot)
        flight_begin_lease(slot);
    go_out();
    flight_show();
    unblock_signals(&signals);
    errno = before;
    return 0;
}

// ---- Forks.

// A fork begins. Until the child has left the file, no handler may record there: the C library lets signals arrive in
// the child before it calls start_child.
static void before_fork(void)
{
    block_signals(&unforked);
    forked = load(&flight_running);
}

static void after_fork(void)
{
    unblock_signals(&unforked);
}

// The child of a fork has this thread alone, which has no slot: the rings may be in calls of threads that are gone.
static void start_child(void)
{
    forget_slot();
    flight_mine.thread = 0;
    is_of_parent |= forked != 0;
    __atomic_store_n(&flight_running, 0, __ATOMIC_SEQ_CST);
    __atomic_store_n(&flight_is_dumping, 0, __ATOMIC_SEQ_CST);
    __atomic_store_n(&flight_inside, 0, __ATOMIC_SEQ_CST);
    flight_turn_sites();
    flight_recorder.memory = NULL;
    flight_leave_file();
    (void)pthread_mutex_init(&flight_lock, NULL);
    after_fork();
}

static void start_process(void)
{
    no_key = pthread_key_create(&key, leave);
    // (Kernels from 4.14 on. With older ones only fork itself is seen.)
    (void)madvise(&flight_wiped, sizeof flight_wiped, MADV_WIPEONFORK);
    (void)pthread_atfork(before_fork, after_fork, start_child);
}

// The key is made early, since the C library takes no memory for the values of a process's first keys alone: the first
// TRACE of a thread may be a handler's.
static __attribute__((constructor)) void start_early(void)
{
    (void)pthread_once(&once, start_process);
}

// ---- Start and stop.

// The numbers of a recorder, with the defaults for those that are 0.
static struct flight_config with_defaults(const struct flight_config *given)
{
    struct flight_config config = {0};
    if (given)
        config = *given;
    config.threads += config.threads ? 0 : 32;
    config.levels += config.levels ? 0 : 2;
    config.pages += config.pages ? 0 : 8;
    config.size += config.size ? 0 : 4080;
    if (config.file && !config.file[0])
        config.file = NULL;
    return config;
}

static bool is_in_range(const struct flight_config *config)
{
    uint32_t cpus, cpu_slots = config->per_cpu ? flight_cpu_slots(&cpus) : 0;
    bool has_clock = config->clock == FLIGHT_MONOTONIC || config->clock == FLIGHT_CALLER;
#if defined(__x86_64__) || defined(__aarch64__)
    has_clock |= config->clock == FLIGHT_TSC;
#endif
    return config->levels <= MOST_LEVELS
        && (uint64_t)config->threads + cpu_slots <= FILE_MOST_RINGS / config->levels && config->pages >= 2
        && config->pages <= 1024 && config->size >= 32 && config->size <= 65520 && config->size % 4 == 0 && has_clock
        && (config->clock == FLIGHT_CALLER) == (config->now != NULL);
}

static size_t in_pages(size_t len)
{
    return (len + FILE_HEADER - 1) / FILE_HEADER * FILE_HEADER;
}

// Counts the slots of a recorder.
static void count_slots(void)
{
    struct recorder *it = &flight_recorder;
    it->ring_slots = it->config.per_cpu ? flight_cpu_slots(&it->cpus) : it->config.threads;
    it->slot_count = it->ring_slots + (it->config.per_cpu ? it->config.threads : 0);
}

// Lays out the memory of a recorder: the slots, the nodes of their queue, and what a dump copies to.
static int get_memory(void)
{
    struct recorder *it = &flight_recorder;
    size_t slots = in_pages(it->slot_count * sizeof *it->slots);
    size_t nodes = in_pages((it->config.threads + 1) * sizeof *it->queue.nodes);
    size_t copies = ring_offset(it->config.pages, it->config.size, it->config.levels);
    it->memory_len = slots + nodes + copies + (it->config.pages + 2) * sizeof *it->pages;
    void *memory = mmap(NULL, it->memory_len, PROT_READ | PROT_WRITE, MAP_PRIVATE | MAP_ANONYMOUS, -1, 0);
    if (memory == MAP_FAILED)
        return ENOMEM;
    it->memory = memory;
    it->slots = memory;
    it->queue.nodes = (struct node *)((uint8_t *)memory + slots);
    it->copies = (uint8_t *)memory + slots + nodes;
    it->pages = (const uint8_t **)(it->copies + copies);
    return 0;
}

static void release_memory(void)
{
    struct recorder *it = &flight_recorder;
    for (uint32_t slot = 0; slot < it->ring_slots; slot++)
        for (uint32_t level = 0; level < it->config.levels; level++)
            (void)tracering_writer_free(&it->slots[slot].rings[level], NULL);
    (void)munmap(it->memory, it->memory_len);
    it->memory = NULL;
}

// Makes the ring of a slot. Nobody reads it but by copying its region, so its reader's end is freed.
static int32_t make_ring(uint32_t slot, uint32_t level)
{
    const struct flight_config *config = &flight_recorder.config;
    struct tracering_reader reader = TRACERING_READER_INIT;
    size_t len;
    void *region = flight_region_of(slot, level, &len);
    uint32_t cpu = (slot * config->levels + level) % FILE_CPUS, pages = level ? FILE_LATER_PAGES : config->pages;
    int32_t code = tracering_new_in(&flight_recorder.slots[slot].rings[level], &reader, cpu, pages, config->size,
        flight_recorder.started_real, region, len);
    return code == TRACERING_DONE ? tracering_reader_free(&reader) : code;
}

// Makes the rings of all slots. What was made before one that isn't is released with the memory.
static int make_rings(void)
{
    for (uint32_t slot = 0; slot < flight_recorder.ring_slots; slot++)
        for (uint32_t level = 0; level < flight_recorder.config.levels; level++)
            if (make_ring(slot, level) != TRACERING_DONE)
                return ENOMEM;
    return 0;
}

// Keeps what a recorder is started with, for children that are forked.
static void keep_given(const struct flight_config *config)
{
    // (It may be what is kept.)
    if (config->file && config->file != given_path)
        memcpy(given_path, config->file, strlen(config->file) + 1);
    given_config = *config;
    given_config.file = config->file ? given_path : NULL;
    is_of_parent = false;
}

static int start(const struct flight_config *config)
{
    char expanded[PATH_MAX], *path = config->file ? expanded : NULL;
    if (config->file && (strlen(config->file) >= PATH_MAX || !flight_expand_path(expanded, config->file)))
        return ENAMETOOLONG;
    memset(&flight_recorder, 0, sizeof flight_recorder);
    flight_recorder.config = *config;
    flight_recorder.config.file = NULL; // the caller's, for so long
    strncpy(flight_recorder.program, program_invocation_short_name, sizeof flight_recorder.program - 1);
    flight_recorder.started = flight_moment();
    flight_recorder.started_real = nanoseconds(CLOCK_REALTIME);
    count_slots();
    int fault = flight_make_sites();
    if (!fault)
        fault = get_memory();
    if (fault)
        return fault;
    fault = flight_make_image(path);
    if (!fault)
        fault = make_rings();
    if (fault) {
        release_memory();
        flight_drop_image(path);
        return fault;
    }
    keep_given(config);
    flight_fill_queue();
    flight_prepare_dumps();
    flight_begin_image();
    last_running += last_running == UINT32_MAX ? 2 : 1;
    __atomic_store_n(&flight_running, last_running, __ATOMIC_SEQ_CST);
    flight_turn_sites();
    return 0;
}

int flight_start(const struct flight_config *given)
{
    struct flight_config config = with_defaults(given);
    int before = errno, cancelled;
    if (!is_in_range(&config))
        return EINVAL;
    (void)pthread_once(&once, start_process);
    // (A thread that is to be cancelled would end where it opens the file.)
    (void)pthread_setcancelstate(PTHREAD_CANCEL_DISABLE, &cancelled);
    (void)pthread_mutex_lock(&flight_lock);
    flight_hide();
    int fault = load(&flight_running) ? EALREADY : no_key ? no_key : start(&config);
    flight_show();
    (void)pthread_mutex_unlock(&flight_lock);
    (void)pthread_setcancelstate(cancelled, NULL);
    errno = before;
    return fault;
}

int flight_start_in_child(void)
{
    if (load(&flight_running))
        return EALREADY;
    if (!is_of_parent)
        return ENODEV;
    if (given_config.file && !strstr(given_config.file, "%p"))
        return EEXIST;
    return flight_start(&given_config);
}

// Waits for the threads that are between go_in and go_out, and answers whether none is any more. One that doesn't go
// on, since it is halted or was cancelled there, isn't waited for for ever.
static bool await_none_inside(void)
{
    uint64_t until = nanoseconds(CLOCK_MONOTONIC) + (uint64_t)STOP_WAIT_MS * 1000000;
    for (uint32_t inside; (inside = load(&flight_inside));) {
        if (nanoseconds(CLOCK_MONOTONIC) >= until)
            return false;
        wait_for_change(&flight_inside, inside, 100000);
    }
    return true;
}

// Stops, or gives up after a while and goes on: a thread that is halted where it gives its slot back may go on at any
// time, so its memory can't be released.
static int stop(void)
{
    uint32_t running = load(&flight_running);
    __atomic_store_n(&flight_running, 0, __ATOMIC_SEQ_CST);
    if (!await_none_inside()) {
        __atomic_store_n(&flight_running, running, __ATOMIC_SEQ_CST);
        flight_turn_sites();
        return ETIMEDOUT;
    }
    flight_turn_sites();
    flight_forget_crashes();
    release_memory();
    flight_end_image();
    return 0;
}

int flight_stop(void)
{
    sigset_t signals;
    int before = errno, fault;
    (void)pthread_mutex_lock(&flight_lock);
    block_signals(&signals);
    flight_hide();
    if (!load(&flight_running))
        fault = ENODEV;
    else if (!exchange_if(&flight_is_dumping, 0, 1))
        fault = EBUSY;
    else {
        fault = stop();
        change(&flight_is_dumping, 0);
    }
    flight_show();
    unblock_signals(&signals);
    (void)pthread_mutex_unlock(&flight_lock);
    errno = before;
    return fault;
}
