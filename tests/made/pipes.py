"""Pipes with names, into which the pages of captures are written while a program reads them."""

import fcntl
import os
import random
import struct
import termios
import threading
import time

PAGE, SECONDS = 4096, 60


class Pipe(threading.Thread):
    """A pipe with a name, into which bytes are written in pieces, with pauses."""

    def __init__(self, path, data, seed, is_closed=True):
        super().__init__(daemon=True)
        self.path, self.data, self.chance, self.is_closed = path, data, random.Random(seed), is_closed
        self.written, self.may_close = threading.Event(), threading.Event()
        os.mkfifo(path)

    def run(self):
        try:
            with open(self.path, "wb", buffering=0) as pipe:
                self.write(pipe)
                self.wait_until_read(pipe)
                self.written.set()
                if not self.is_closed:
                    self.may_close.wait(SECONDS)
        except BrokenPipeError:
            self.written.set()

    def write(self, pipe):
        at = 0
        while at < len(self.data):
            count = self.chance.choice([1, 7, PAGE, PAGE - 1, 3 * PAGE, 16 * PAGE])
            pipe.write(self.data[at : at + count])
            at += count
            if self.chance.random() < 0.2:
                time.sleep(self.chance.random() * 0.02)

    @staticmethod
    def wait_until_read(pipe):
        """Waits until all of the pipe is read, for at most so many seconds."""
        end = time.monotonic() + SECONDS
        while time.monotonic() < end:
            (left,) = struct.unpack("i", fcntl.ioctl(pipe, termios.FIONREAD, bytes(4)))
            if not left:
                return
            time.sleep(0.01)
