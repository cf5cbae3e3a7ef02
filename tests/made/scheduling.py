"""Listings as `tracering collect --fields` prints them of a kernel that switches between tasks, with what is missing,
and what is true of them: which task held a CPU for longest, what was lost meanwhile, how long tasks waited.

The kernel is made: CPUs that take tasks in turns, tasks that sleep and are woken, call the system, and are interrupted.
"""

from dataclasses import dataclass, field

NAMES = ("sshd", "postgres", "kworker/u8:2", "nginx", "rcu_preempt", "backup", "node_exporter", "ksoftirqd/0")
CALLS = ("read", "futex", "epoll_wait")


@dataclass
class Run:
    """A run of a task on a CPU, by moments, and by the numbers of the CPU's records."""

    pid: int
    cpu: int
    begin: int
    end: int
    first: int
    last: int


@dataclass
class Cpu:
    """What a CPU does now."""

    number: int = 0
    pid: int = 0
    since: int = 0
    switched: int = 0
    lost: list = field(default_factory=list)


class Kernel:
    """A kernel that is traced. `rows` has its records as (moment, CPU, number, process, event, fields)."""

    def __init__(self, random, cpus, tasks, start):
        self.random, self.now, self.rows, self.runs = random, start, [], []
        self.cpus = [Cpu() for _ in range(cpus)]
        self.names = {100 + at: NAMES[at % len(NAMES)] for at in range(tasks)}
        self.asleep, self.ready, self.woken, self.waits = sorted(self.names), [], {}, []

    def comm(self, pid, cpu):
        return self.names.get(pid, f"swapper/{cpu}")

    def put(self, cpu, event, fields):
        own = self.cpus[cpu]
        self.rows.append((self.now, cpu, own.number, own.pid, event, fields))
        own.number += 1
        self.now += self.random.randrange(200, 2000)

    def wake(self, cpu):
        if not self.asleep:
            return
        pid = self.asleep.pop(self.random.randrange(len(self.asleep)))
        self.ready.append(pid)
        self.woken[pid] = self.now
        self.put(cpu, "sched:sched_wakeup", f'comm="{self.comm(pid, cpu)}" pid={pid} prio=120 target_cpu={cpu}')

    def switch(self, cpu):
        """The CPU turns to the task that is ready for longest, or idles; the one before sleeps, or is ready itself."""
        own = self.cpus[cpu]
        before, state = own.pid, self.random.choice((0, 1, 1, 2)) if own.pid else 0
        after = self.ready.pop(0) if self.ready else 0
        if before == after:
            return
        now, number = self.now, own.number
        self.put(cpu, "sched:sched_switch", f'prev_comm="{self.comm(before, cpu)}" prev_pid={before} prev_prio=120 '
                 f'prev_state={state} next_comm="{self.comm(after, cpu)}" next_pid={after} next_prio=120')
        if before:
            self.runs.append(Run(before, cpu, own.since, now, own.switched, number))
            if state == 0:
                self.ready.append(before)
                self.woken[before] = now
            else:
                self.asleep.append(before)
        if after:
            self.waits.append((after, self.woken.pop(after), now))
        own.pid, own.since, own.switched = after, now, number

    def interrupt(self, cpu):
        line = self.random.choice((9, 24, 25))
        self.put(cpu, "irq:irq_handler_entry", f'irq={line} name="virtio{line}"')
        if self.random.random() < 0.4:
            self.put(cpu, "irq:softirq_entry", "vec=1")
            self.put(cpu, "irq:softirq_exit", "vec=1")
        self.put(cpu, "irq:irq_handler_exit", f"irq={line} ret=1")

    def call(self, cpu):
        if self.cpus[cpu].pid:
            name = self.random.choice(CALLS)
            self.put(cpu, f"syscalls:sys_enter_{name}", "__syscall_nr=0 fd=0x4 count=0x2000")
            if self.random.random() < 0.3:
                self.interrupt(cpu)
            self.put(cpu, f"syscalls:sys_exit_{name}", "__syscall_nr=0 ret=17")

    def step(self, held=None):
        """A CPU does something, but for one whose task is held."""
        cpu = self.random.choice([cpu for cpu in range(len(self.cpus)) if cpu != held])
        self.random.choice((self.wake, self.wake, self.switch, self.switch, self.interrupt, self.call, self.call))(cpu)

    def hold(self, cpu, moments):
        """The task of a CPU stays on it for so long, with interrupts alone, while other CPUs go on."""
        while not self.cpus[cpu].pid:
            self.wake(cpu)
            self.switch(cpu)
        end = self.now + moments
        while self.now < end:
            self.interrupt(cpu)
            for _ in range(10 if len(self.cpus) > 1 else 0):
                self.step(held=cpu)
            self.now += moments // 20
        held = self.cpus[cpu].pid
        while self.cpus[cpu].pid == held:
            self.switch(cpu)
            self.wake(cpu)

    def longest(self):
        """The run that took longest."""
        return max(self.runs, key=lambda run: run.end - run.begin)


def listing(rows, lost):
    """The text of records, without those whose CPU and number are in `lost`; these are its missing runs."""
    lines = [f"{cpu} {number} {moment} {pid} {event} {fields}" for moment, cpu, number, pid, event, fields in rows
             if (cpu, number) not in lost]
    runs = []
    for cpu, number in sorted(lost):
        if runs and runs[-1][0] == cpu and runs[-1][2] == number - 1:
            runs[-1][2] = number
        else:
            runs.append([cpu, number, number])
    return "".join(f"{line}\n" for line in lines + ["missing %d %d-%d" % tuple(run) for run in runs])


def made(random, records, cpus=2, tasks=12, start=24_000_000_000, losses=0):
    """A kernel with so many records, and the CPUs and numbers of those that are lost: runs of some, one of them within
    the longest run of a task."""
    kernel, lost = Kernel(random, cpus, tasks, start), set()
    while len(kernel.rows) < records * 2 // 3:
        kernel.step()
    kernel.hold(random.randrange(cpus), 40_000_000)
    while len(kernel.rows) < records:
        kernel.step()
    for at in range(losses):
        longest = kernel.longest()
        cpu = random.randrange(cpus) if at else longest.cpu
        first = random.randrange(5, kernel.cpus[cpu].number - 50) if at else longest.first + 3
        length = random.randrange(1, 30) if at else min(9, longest.last - first - 2)
        lost |= {(cpu, number) for number in range(first, first + length)}
    return kernel, lost
