// The flight recorder: dumps that are made in a crash.
#define _GNU_SOURCE
#include "recorder.h"

#include <stdlib.h>
#include <sys/mman.h>
#include <ucontext.h>

enum {
    STACK_SIZE = 1 << 16, // of the alternate stack that a thread gets
    LEAST_STACK = 1 << 14 // of its own, which is left to it: a quarter of that is too little for a dump
};

static const int crashes[] = {SIGSEGV, SIGBUS, SIGILL, SIGFPE, SIGABRT, SIGTERM};
enum { CRASHES = sizeof crashes / sizeof *crashes };
static struct sigaction former[CRASHES];
static bool is_installed[CRASHES]; // and wasn't removed: it may be called, by another handler too
static bool are_wanted, is_in_valgrind;

// A path that was given. None is released: a thread that is hit may be writing to it when another one is given.
struct crash_path {
    struct crash_path *next;
    char text[];
};
static struct crash_path *crash_paths;
static const char *crash_path; // the last one

// Whether the signal is a fault of the instruction that it interrupts, which happens again when the handler returns.
static bool is_fault(int signal, const siginfo_t *info)
{
    bool is_of_fault = signal == SIGSEGV || signal == SIGBUS || signal == SIGILL || signal == SIGFPE;
    return is_of_fault && info->si_code > 0 && !(signal == SIGBUS && info->si_code == BUS_MCEERR_AO);
}

// Whether the former action of this signal ends the process. (A fault that is ignored does so, too.)
static bool ends_process(const struct sigaction *action, int signal, const siginfo_t *info)
{
    if (action->sa_flags & SA_SIGINFO)
        return false;
    return action->sa_handler == SIG_DFL || (action->sa_handler == SIG_IGN && is_fault(signal, info));
}

// The process dies by the signal as soon as its handler returns, with what the kernel said of it, so that a core file
// has the fault's address. (The fault itself may not happen again: another thread may have mapped its page. Valgrind
// takes a fault that is sent for one of its own, so there it has to happen again.)
static void die(int signal, const siginfo_t *info)
{
    struct sigaction action = {.sa_handler = SIG_DFL};
    (void)sigaction(signal, &action, NULL);
    if (is_in_valgrind && is_fault(signal, info))
        return;
    if (syscall(SYS_rt_tgsigqueueinfo, getpid(), this_thread(), signal, info))
        (void)raise(signal);
}

// Calls the former handler, with those signals blocked that it asked for.
static void call_former(const struct sigaction *action, int signal, siginfo_t *info, void *context)
{
    sigset_t blocked = ((ucontext_t *)context)->uc_sigmask;
    for (int each = 1; each < NSIG; each++)
        if (sigismember(&action->sa_mask, each) == 1)
            (void)sigaddset(&blocked, each);
    if (!(action->sa_flags & SA_NODEFER))
        (void)sigaddset(&blocked, signal);
    if (action->sa_handler == SIG_IGN)
        return;
    unblock_signals(&blocked);
    if (action->sa_flags & SA_SIGINFO)
        action->sa_sigaction(signal, info, context);
    else
        action->sa_handler(signal);
}

// A thread that is hit while another one dumps waits until that is done. If the process is to end then, it waits for
// that. It makes no dump of its own if it waited for that of a crash: the other thread's former handler may end the
// process at any time now.
static void dump_crash(int signal, bool is_last)
{
    uint32_t before = load(&flight_crash_dumps);
    int fault;
    while (!flight_try_dump(__atomic_load_n(&crash_path, __ATOMIC_SEQ_CST), signal, is_last, &fault)) {
        wait_for_change(&flight_is_dumping, 1, 1000000);
        if (load(&flight_crash_dumps) != before)
            return;
    }
}

static void on_crash(int signal, siginfo_t *info, void *context)
{
    int before = errno;
    size_t at = 0;
    while (crashes[at] != signal)
        at++;
    bool is_last = ends_process(&former[at], signal, info);
    dump_crash(signal, is_last);
    errno = before;
    if (is_last)
        die(signal, info);
    else
        call_former(&former[at], signal, info, context);
}

// Gives the calling thread a stack for handlers, unless it has one that is large enough, or is on it now.
static int get_stack(void)
{
    stack_t stack;
    if (sigaltstack(NULL, &stack))
        return errno;
    if (!(stack.ss_flags & SS_DISABLE) && (stack.ss_size >= LEAST_STACK || stack.ss_flags & SS_ONSTACK))
        return 0;
    void *memory = mmap(NULL, STACK_SIZE, PROT_READ | PROT_WRITE, MAP_PRIVATE | MAP_ANONYMOUS, -1, 0);
    if (memory == MAP_FAILED)
        return ENOMEM;
    stack = (stack_t){.ss_sp = memory, .ss_size = STACK_SIZE};
    if (!sigaltstack(&stack, NULL))
        return 0;
    int fault = errno;
    (void)munmap(memory, STACK_SIZE);
    return fault;
}

// A signal that has another handler already, over the one of here, is left as it is: else each would call the other.
static int install_handlers(void)
{
    struct sigaction action = {.sa_sigaction = on_crash, .sa_flags = SA_SIGINFO | SA_ONSTACK};
    const char *preload = getenv("LD_PRELOAD");
    is_in_valgrind = preload && strstr(preload, "vgpreload_");
    sigfillset(&action.sa_mask);
    for (size_t at = 0; at < CRASHES; at++) {
        struct sigaction now;
        if (sigaction(crashes[at], NULL, &now))
            return errno;
        bool is_own = (now.sa_flags & SA_SIGINFO) && now.sa_sigaction == on_crash;
        bool is_handler = (now.sa_flags & SA_SIGINFO) || (now.sa_handler != SIG_DFL && now.sa_handler != SIG_IGN);
        if (is_own || (is_installed[at] && is_handler))
            continue;
        former[at] = now;
        is_installed[at] = true;
        if (sigaction(crashes[at], &action, NULL))
            return errno;
    }
    return 0;
}

// A handler that was installed over one of these stays, and may call it, so that one stays installed as well.
void flight_forget_crashes(void)
{
    struct sigaction now;
    for (size_t at = 0; at < CRASHES; at++)
        if (is_installed[at] && !sigaction(crashes[at], NULL, &now) && (now.sa_flags & SA_SIGINFO)
            && now.sa_sigaction == on_crash)
            is_installed[at] = sigaction(crashes[at], &former[at], NULL) != 0;
    are_wanted = false;
}

// Lets the next crash dump to this path.
static int set_crash_path(const char *path)
{
    struct crash_path *kept = crash_paths;
    while (kept && strcmp(kept->text, path))
        kept = kept->next;
    if (!kept) {
        size_t size = strlen(path) + 1;
        kept = malloc(sizeof *kept + size);
        if (!kept)
            return ENOMEM;
        memcpy(kept->text, path, size);
        kept->next = crash_paths;
        crash_paths = kept;
    }
    __atomic_store_n(&crash_path, kept->text, __ATOMIC_SEQ_CST);
    return 0;
}

int flight_dump_on_crash(const char *path)
{
    char expanded[PATH_MAX];
    if (!path)
        return EINVAL;
    if (!flight_expand_path(expanded, path) || strlen(expanded) + 2 > PATH_MAX)
        return ENAMETOOLONG;
    sigset_t signals;
    int before = errno;
    (void)pthread_mutex_lock(&flight_lock);
    block_signals(&signals);
    int fault = load(&flight_running) ? get_stack() : ENODEV;
    if (!fault)
        fault = set_crash_path(path);
    if (!fault && !are_wanted)
        fault = install_handlers();
    are_wanted |= !fault;
    unblock_signals(&signals);
    (void)pthread_mutex_unlock(&flight_lock);
    errno = before;
    return fault;
}
