"""What `test` starts: programs that end with it, and servers of NATS. What has to come about is waited for, for many
minutes if need be: a machine may have much else to do, and no time is a sign that something is wrong.
"""

import asyncio
import json
import re
import shutil
import signal
import socket
import subprocess
import time
from pathlib import Path

HOST = "127.0.0.1"
# How many seconds something may take, whatever else the machine does.
LONG = 600
# What a command begins with that the kernel kills when the process that started it has ended.
ENDS_WITH_US = ["setpriv", "--pdeathsig", "KILL"]


class Failure(Exception):
    """What is otherwise than it has to be."""


def check(holds, what):
    if not holds:
        raise Failure(what)


def looks(holds, what, children, seconds):
    """Looks again and again whether this holds, with a pause after each look, until it does. Each child has to run."""
    end = time.monotonic() + seconds
    while not (found := holds()):
        for child in children:
            check(child.is_running() or holds(), f"{what}: {child.name} has ended")
        check(time.monotonic() < end, f"{what}: not in {seconds} seconds")
        yield None
    yield found


def until(holds, what, *children, seconds=LONG):
    """Waits until this holds, and answers it."""
    for found in looks(holds, what, children, seconds):
        if found:
            return found
        time.sleep(0.02)


async def comes(holds, what, *children, seconds=LONG):
    """The same, while other things go on."""
    for found in looks(holds, what, children, seconds):
        if found:
            return found
        await asyncio.sleep(0.05)


class Child:
    """A program that can be killed, frozen and started again. It is killed when the test ends, whatever ends that."""

    children = []

    def __init__(self, name, folder):
        self.name, self.output, self.process = name, folder / f"{name}.said", None
        Child.children.append(self)

    def start(self, *command, **ends):
        with open(self.output, "ab") as output:
            ends = {"stdin": subprocess.DEVNULL, "stdout": output, "stderr": output} | ends
            self.process = subprocess.Popen([*ENDS_WITH_US, *map(str, command)], **ends)

    def said(self):
        return self.output.read_text(errors="replace") if self.output.exists() else ""

    def is_running(self):
        return self.process is not None and self.process.poll() is None

    def signal(self, number):
        if self.is_running():
            self.process.send_signal(number)

    def kill(self):
        self.signal(signal.SIGKILL)
        self.process.wait()

    def is_frozen(self):
        """Whether each of its threads is stopped."""
        try:
            threads = [*Path(f"/proc/{self.process.pid}/task").iterdir()]
            return all((thread / "stat").read_text().rpartition(")")[2].split()[0] == "T" for thread in threads)
        except OSError:
            return False

    def freeze(self):
        """Stops it. (The thread that gets the signal may wait for a processor, and the others go on until then.)"""
        self.signal(signal.SIGSTOP)
        until(self.is_frozen, f"{self.name} is frozen", self)

    async def frozen(self, seconds):
        self.signal(signal.SIGSTOP)
        await asyncio.sleep(seconds)
        self.signal(signal.SIGCONT)

    async def ended(self):
        """Its status, once it has ended."""
        await comes(lambda: not self.is_running(), f"{self.name} ends")
        return self.process.returncode

    async def end_well(self):
        status = await self.ended()
        check(status == 0, f"{self.name} ends with status {status}")

    @classmethod
    def kill_all(cls):
        for child in cls.children:
            if child.is_running():
                child.kill()
        cls.children.clear()

    @classmethod
    def told(cls):
        """What all of them said last, and how they ended."""
        for child in cls.children:
            if child.process:
                lines = child.said().split("\n")[-25:]
                yield f"---- {child.name}, status {child.process.poll()}:\n" + "\n".join(lines)


class NatsServer:
    """A server of NATS. At each start it takes ports that the kernel gives it, and says which: a port that is chosen
    before may be another program's by the time that the server listens. One that can't begin is started again.
    """

    says = {
        "clients": "Listening for client connections on",
        "monitor": "Starting http monitor on",
        "routes": "Listening for route connections on",
    }

    def __init__(self, name, folder, lines, listens=("clients",), is_port_kept=False):
        self.folder, self.child, self.lines, self.listens = folder, Child(name, folder), lines, listens
        self.ports, self.is_port_kept = {}, is_port_kept

    def begin(self):
        """Starts it. Its clients' port is that of its last start, if it is to be kept."""
        port = self.ports.get("clients", -1) if self.is_port_kept else -1
        (self.folder / "nats.conf").write_text("\n".join([f'listen: "{HOST}:{port}"', *self.lines]) + "\n")
        self.child.start(shutil.which("nats-server") or "/usr/sbin/nats-server", "-c", self.folder / "nats.conf")

    def is_there(self):
        """Whether it listens. Notes its ports."""
        lines, ports = self.child.said().split("\n")[:-1], {}
        lines = [line for line in lines if line.startswith(f"[{self.child.process.pid}]")]
        for name in self.listens:
            found = [line for line in lines if f"{self.says[name]} {HOST}:" in line]
            ports |= {name: int(found[0].rpartition(":")[2]) for _ in found[:1]}
        if len(ports) == len(self.listens):
            self.ports = ports
        return len(ports) == len(self.listens)

    def tries(self):
        """Starts it, and looks whether it listens, with a pause after each look."""
        end = time.monotonic() + LONG
        while True:
            self.begin()
            for there in looks(lambda: self.is_there() or not self.child.is_running(), "nats-server listens", (), LONG):
                if there and self.child.is_running():
                    return
                yield
            print(f"fleet: {self.child.name} can't begin, and is started again: {self.last_words()}", flush=True)
            # (A port that another program had for a moment may be taken for a minute.)
            check(time.monotonic() < end, f"{self.child.name} can't begin")
            yield from [None] * 20

    def last_words(self):
        return " ".join(self.child.said().split("\n")[-2:]).strip()

    def start(self):
        for _ in self.tries():
            time.sleep(0.02)

    async def start_beside(self):
        """The same, while other things go on."""
        for _ in self.tries():
            await asyncio.sleep(0.05)


class Link:
    """A connection to a server of NATS that has an answer to each of its messages."""

    def __init__(self, port):
        self.socket, self.got = socket.create_connection((HOST, port)), b""
        self.socket.settimeout(LONG)
        self.socket.sendall(b'CONNECT {"verbose":false}\r\nSUB answers 1\r\n')

    def __enter__(self):
        return self

    def __exit__(self, *_):
        self.socket.close()

    def send(self, subject, message):
        self.socket.sendall(f"PUB {subject} answers {len(message)}\r\n".encode() + message + b"\r\n")

    def answer(self):
        """The next answer."""
        while not ((head := re.search(rb"MSG answers 1 +(\d+)\r\n", self.got))
                   and len(self.got) >= head.end() + int(head[1]) + 2):
            data = self.socket.recv(1 << 16)
            check(data, f"the server ends a connection: {self.got}")
            if b"PING\r\n" in data:
                self.socket.sendall(b"PONG\r\n")
            self.got += data
        end = head.end() + int(head[1])
        text, self.got = self.got[head.end() : end], self.got[end + 2 :]
        return json.loads(text)


class MockBrokers:
    """Three brokers of librdkafka's mock cluster."""

    all = []

    def __init__(self, folder, program):
        self.child, self.program, self.servers = Child("mock_kafka", folder), program, None
        MockBrokers.all.append(self)

    @classmethod
    def fault(cls):
        """The assertion of the library's own by which brokers ended, if any did. (One of 2.0.2 fails if a member of a
        group joins before its last join is answered, as when they haven't seen that its connection is closed.)
        """
        found = (re.search(r"(rdkafka_mock\w*\.c:.* Assertion .*)\n", brokers.child.said()) for brokers in cls.all)
        return next((fault[1] for fault in found if fault), None)

    def begin(self, *ports):
        self.child.start(self.program, *ports, stdin=subprocess.PIPE)

    def is_there(self):
        """Whether they are told. (Warnings of the library go to the same file, also before the addresses.)"""
        if found := re.search("^([0-9.:,]+)\n", self.child.said(), re.M):
            self.servers = found[1]
        return self.servers

    def tell(self, line):
        self.child.process.stdin.write(f"{line}\n".encode())
        self.child.process.stdin.flush()

    def asked(self, line):
        """Tells them a line. What is answered then gives what is said of it, or None as long as nothing is."""
        before = len(self.child.said())
        self.tell(line)
        answer = re.compile(f"^{line} (.*)\n", re.M)
        return lambda: answer.search(self.child.said()[before:])
