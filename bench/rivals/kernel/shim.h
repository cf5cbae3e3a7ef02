/*
 * What the kernel's kernel/trace/ring_buffer.c (6.1) asks of the kernel, in user space, on x86-64, for the buffer of one
 * CPU. It is written for this comparison, and has no text of the kernel's. Memory words act as on a kernel's CPU:
 * `local` operations are one instruction without a lock prefix, `cmpxchg` has one. The one thread is the CPU, and
 * `shim_level` says which of its contexts runs.
 */
#ifndef SHIM_H
#define SHIM_H
#include <errno.h>
#include <pthread.h>
#include <sched.h>
#include <stdbool.h>
#include <stddef.h>
#include <stdint.h>
#include <stdio.h>
#include <stdlib.h>
#include <string.h>
#include <unistd.h>
#include <sys/types.h>

typedef uint64_t u64; typedef uint32_t u32; typedef uint16_t u16; typedef uint8_t u8;
typedef int64_t s64; typedef int32_t s32;
typedef unsigned gfp_t; typedef unsigned __poll_t;

/* compiler */
#undef __always_inline
#define __always_inline inline __attribute__((always_inline))
#define noinline __attribute__((noinline))
#define __init
#define __initdata
#undef __aligned
#define __aligned(n) __attribute__((aligned(n)))
#define likely(x) __builtin_expect(!!(x), 1)
#define unlikely(x) __builtin_expect(!!(x), 0)
#define barrier() __asm__ volatile("" ::: "memory")
#define fallthrough __attribute__((fallthrough))
#define __same_type(a, b) __builtin_types_compatible_p(typeof(a), typeof(b))
#define READ_ONCE(x) (*(const volatile typeof(x) *)&(x))
#define WRITE_ONCE(x, v) (*(volatile typeof(x) *)&(x) = (v))
#define container_of(p, t, m) ((t *)((char *)(p) - offsetof(t, m)))
#define ALIGN(x, a) (((x) + (a) - 1) & ~((typeof(x))(a) - 1))
#define DIV_ROUND_UP(n, d) (((n) + (d) - 1) / (d))
#define BIT(n) (1UL << (n))
#define EXPORT_SYMBOL_GPL(x)
#define IS_ENABLED(x) 0
#define is_signed_type(t) (((t)(-1)) < (t)1)
#define max(a, b) ((a) > (b) ? (a) : (b))
#define min(a, b) ((a) < (b) ? (a) : (b))
#define BITS_PER_LONG 64
#define PAGE_SIZE 4096UL
#define PAGE_MASK (~(PAGE_SIZE - 1))
#define _THIS_IP_ 0UL
#define _RET_IP_ 0UL
#define ERR_PTR(e) ((void *)(long)(e))
#define PTR_ERR(p) ((long)(p))
#define IS_ERR(p) ((unsigned long)(p) >= (unsigned long)-4095)
#define MAX_ERRNO 4095

/* barriers of x86-64 */
#define smp_mb() __asm__ volatile("lock; addl $0,-4(%%rsp)" ::: "memory", "cc")
#define smp_wmb() barrier()
#define smp_rmb() barrier()

static inline unsigned long shim_exchange(void *at, unsigned long old, unsigned long to)
{
	unsigned long was;

	__asm__ volatile("lock; cmpxchgq %2,%1"
			 : "=a"(was), "+m"(*(unsigned long *)at) : "r"(to), "0"(old) : "memory", "cc");
	return was;
}
#define cmpxchg(p, o, n) \
	((typeof(*(p)))shim_exchange((p), (unsigned long)(o), (unsigned long)(n)))
#define try_cmpxchg(p, o, n) ({ \
	typeof(*(p)) __o = *(o), __w = cmpxchg((p), __o, (n)); \
	bool __k = __w == __o; if (!__k) *(o) = __w; __k; })

/* words of one CPU */
typedef struct { long v; } local_t;
typedef struct { long v; } local64_t;
static inline long local_read(const local_t *l) { return READ_ONCE(l->v); }
static inline void local_set(local_t *l, long i) { WRITE_ONCE(l->v, i); }
static inline void local_add(long i, local_t *l)
{ __asm__ volatile("addq %1,%0" : "+m"(l->v) : "er"(i) : "memory", "cc"); }
static inline void local_sub(long i, local_t *l)
{ __asm__ volatile("subq %1,%0" : "+m"(l->v) : "er"(i) : "memory", "cc"); }
static inline void local_inc(local_t *l)
{ __asm__ volatile("incq %0" : "+m"(l->v) : : "memory", "cc"); }
static inline void local_dec(local_t *l)
{ __asm__ volatile("decq %0" : "+m"(l->v) : : "memory", "cc"); }
static inline long local_add_return(long i, local_t *l)
{
	long was = i;

	__asm__ volatile("xaddq %0,%1" : "+r"(was), "+m"(l->v) : : "memory", "cc");
	return was + i;
}
static inline long local_cmpxchg(local_t *l, long old, long to)
{
	long was;

	__asm__ volatile("cmpxchgq %2,%1" : "=a"(was), "+m"(l->v) : "r"(to), "0"(old) : "memory", "cc");
	return was;
}
#define local_inc_return(l) local_add_return(1, (l))
static inline u64 local64_read(const local64_t *l) { return READ_ONCE(l->v); }
static inline void local64_set(local64_t *l, u64 i)
{ WRITE_ONCE(l->v, i); }

typedef struct { int counter; } atomic_t;
#define ATOMIC_INIT(i) { (i) }
static inline int atomic_read(const atomic_t *a) { return READ_ONCE(a->counter); }
static inline void atomic_set(atomic_t *a, int i) { WRITE_ONCE(a->counter, i); }
static inline void atomic_inc(atomic_t *a) { __sync_fetch_and_add(&a->counter, 1); }
static inline void atomic_dec(atomic_t *a) { __sync_fetch_and_sub(&a->counter, 1); }
static inline void atomic_add(int i, atomic_t *a) { __sync_fetch_and_add(&a->counter, i); }
static inline void atomic_sub(int i, atomic_t *a) { __sync_fetch_and_sub(&a->counter, i); }
static inline int atomic_inc_return(atomic_t *a) { return __sync_add_and_fetch(&a->counter, 1); }
static inline int atomic_dec_return(atomic_t *a) { return __sync_sub_and_fetch(&a->counter, 1); }
static inline int atomic_cmpxchg(atomic_t *a, int o, int n)
{ return __sync_val_compare_and_swap(&a->counter, o, n); }

/* locks: only readers take them */
typedef struct { volatile int held; } arch_spinlock_t;
typedef arch_spinlock_t raw_spinlock_t, spinlock_t;
struct lock_class_key { int none; };
#define __ARCH_SPIN_LOCK_UNLOCKED { 0 }
static inline void arch_spin_lock(arch_spinlock_t *l)
{ while (__sync_lock_test_and_set(&l->held, 1)) __builtin_ia32_pause(); }
static inline void arch_spin_unlock(arch_spinlock_t *l) { __sync_lock_release(&l->held); }
static inline int shim_trylock(arch_spinlock_t *l) { return !__sync_lock_test_and_set(&l->held, 1); }
#define raw_spin_lock_init(l) ((l)->held = 0)
#define raw_spin_lock(l) arch_spin_lock(l)
#define raw_spin_unlock(l) arch_spin_unlock(l)
#define raw_spin_trylock(l) shim_trylock(l)
#define raw_spin_lock_irq(l) arch_spin_lock(l)
#define raw_spin_unlock_irq(l) arch_spin_unlock(l)
#define raw_spin_lock_irqsave(l, f) ((void)((f) = 0), arch_spin_lock(l))
#define raw_spin_unlock_irqrestore(l, f) ((void)(f), arch_spin_unlock(l))
#define local_irq_save(f) ((f) = 0)
#define local_irq_restore(f) ((void)(f))
#define lockdep_set_class(l, k) ((void)(k))
/* a guard holds the lock to the end of its block */
static inline void shim_unguard(arch_spinlock_t **l) { arch_spin_unlock(*l); }
static inline arch_spinlock_t *shim_guard(arch_spinlock_t *l) { arch_spin_lock(l); return l; }
#define guard(kind) shim_guard_##kind
#define shim_guard_raw_spinlock_irqsave(l) \
	arch_spinlock_t *__held __attribute__((cleanup(shim_unguard))) = shim_guard(l)
#define scoped_guard(kind, l) \
	for (arch_spinlock_t *__once __attribute__((cleanup(shim_unguard))) = shim_guard(l), *__go = __once; \
	     __go; __go = NULL)
struct mutex { int none; };
#define mutex_init(m) ((void)(m))
#define mutex_lock(m) ((void)(m))
#define mutex_unlock(m) ((void)(m))

/* lists */
struct list_head { struct list_head *next, *prev; };
struct hlist_node { void *none; };
#define LIST_HEAD_INIT(n) { &(n), &(n) }
#define LIST_HEAD(n) struct list_head n = LIST_HEAD_INIT(n)
#define INIT_LIST_HEAD(l) ((l)->next = (l)->prev = (l))
#define list_entry(p, t, m) container_of(p, t, m)
#define list_empty(l) ((l)->next == (l))
static inline void list_add(struct list_head *n, struct list_head *at)
{ at->next->prev = n; n->next = at->next; n->prev = at; at->next = n; }
static inline void list_del(struct list_head *l) { l->next->prev = l->prev; l->prev->next = l->next; }
static inline void list_del_init(struct list_head *l) { list_del(l); INIT_LIST_HEAD(l); }
#define list_for_each(p, h) for (p = (h)->next; p != (h); p = p->next)
#define list_for_each_entry(p, h, m) \
	for (p = list_entry((h)->next, typeof(*p), m); &p->m != (h); p = list_entry(p->m.next, typeof(*p), m))
#define list_for_each_entry_safe(p, n, h, m) \
	for (p = list_entry((h)->next, typeof(*p), m), n = list_entry(p->m.next, typeof(*p), m); \
	     &p->m != (h); p = n, n = list_entry(n->m.next, typeof(*n), m))

/* memory */
#define GFP_KERNEL 0u
#define __GFP_NORETRY 0u
#define __GFP_RETRY_MAYFAIL 0u
struct page;
static inline void *kzalloc(size_t n, gfp_t f)
{ void *p = aligned_alloc(64, ALIGN(n, 64UL)); (void)f; if (p) memset(p, 0, ALIGN(n, 64UL)); return p; }
#define kmalloc(n, f) kzalloc(n, f)
#define kzalloc_node(n, f, node) kzalloc(n, f)
#define kfree(p) free((void *)(p))
static inline struct page *alloc_pages_node(int node, gfp_t f, int order)
{ void *p = aligned_alloc(4096, 4096UL << order); (void)node; (void)f; if (p) memset(p, 0, 4096UL << order); return p; }
#define page_address(p) ((void *)(p))
#define virt_to_page(p) ((struct page *)(p))
#define page_ref_count(p) 1
#define free_page(a) free((void *)(a))
#define cache_line_size() 64
#define cpu_to_node(c) 0
#define si_mem_available() 1000000L
struct task_struct { void *mm; };
extern struct task_struct shim_task;
#define current (&shim_task)
#define set_current_oom_origin() ((void)0)
#define clear_current_oom_origin() ((void)0)
#define fatal_signal_pending(t) 0

/* CPUs: there is one, number 0 */
typedef unsigned long cpumask_var_t[1];
#define nr_cpu_ids 1
#define cpumask_test_cpu(c, m) ((m)[0] >> (c) & 1)
#define cpumask_set_cpu(c, m) ((m)[0] |= 1UL << (c))
#define for_each_cpu(c, m) for ((c) = 0; (c) < 1; (c)++)
#define for_each_cpu_and(c, m, n) for ((c) = 0; (c) < 1; (c)++)
#define cpu_online_mask 0
#define cpu_online(c) 1
#define zalloc_cpumask_var(m, f) ((*(m))[0] = 0, 1)
#define free_cpumask_var(m) ((void)(m))
#define raw_smp_processor_id() 0
#define smp_processor_id() 0
#define get_cpu() 0
#define put_cpu() ((void)0)
#define preempt_disable() barrier()
#define preempt_enable() barrier()
#define preempt_disable_notrace() barrier()
#define preempt_enable_notrace() barrier()
#define migrate_disable() barrier()
#define migrate_enable() barrier()
#define cpus_read_lock() ((void)0)
#define cpus_read_unlock() ((void)0)
#define cpuhp_state_add_instance(s, n) 0
#define cpuhp_state_remove_instance(s, n) ((void)0)
#define DEFINE_PER_CPU(t, n) t n
#define this_cpu_ptr(p) (p)
extern int shim_level;          /* 0 normal, 1 softirq, 2 irq, 3 NMI */
#define interrupt_context_level() shim_level
#define in_nmi() 0
#define synchronize_rcu() ((void)0)
#define cond_resched() ((void)0)
#define udelay(n) __builtin_ia32_pause()
#define system_state 1
#define SYSTEM_BOOTING 0
#define oops_in_progress 0

/* waiting and work: nothing waits here */
struct work_struct { int none; };
struct completion { int none; };
struct irq_work { void (*f)(struct irq_work *); };
typedef struct wait_queue_head { int none; } wait_queue_head_t;
typedef struct poll_table_struct { int none; } poll_table;
struct file;
struct trace_seq;
#define INIT_WORK(w, f) ((void)(f))
#define init_completion(c) ((void)(c))
#define complete(c) ((void)(c))
#define wait_for_completion(c) ((void)(c))
#define schedule_work_on(c, w) ((void)(w))
#define init_irq_work(w, g) ((w)->f = (g))
#define irq_work_queue(w) ((void)(w))
#define irq_work_sync(w) ((void)(w))
#define init_waitqueue_head(q) ((void)(q))
#define wake_up_all(q) ((void)(q))
#define wait_event_interruptible(q, c) ({ (void)(c); 0; })
#define poll_wait(f, q, t) ((void)(q))
#define EPOLLIN 1u
#define EPOLLRDNORM 2u
#define EPOLLERR 4u
#define trace_seq_puts(s, x) ((void)(s))
#define trace_seq_putc(s, x) ((void)(s))
#define trace_seq_printf(s, ...) ((void)(s))
#define trace_seq_has_overflowed(s) 0

/* reports */
extern unsigned long shim_warnings;
#define WARN_ON(c) ({ int __c = !!(c); if (__c) { shim_warnings++; fprintf(stderr, "warn line %d\n", __LINE__); } __c; })
#define WARN_ON_ONCE(c) WARN_ON(c)
#define WARN_ONCE(c, ...) WARN_ON(c)
#define WARN(c, ...) WARN_ON(c)
#define pr_warn(...) ((void)0)
#define pr_info(...) ((void)0)

/* the clock */
extern u64 shim_clock(void);
static inline u64 trace_clock_local(void) { return shim_clock(); }
#endif
