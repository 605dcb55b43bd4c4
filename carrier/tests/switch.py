"""A switch of Ethernet frames in user space, which loses, delays and reorders them on command:
    switch.py NAME..
It makes a TAP device of each name, which somebody moves into a network namespace. The I'th has
the address 02:00:00:00:00:(I+1). Commands come on standard input, one a line; I and J are
numbers of devices, or '*' for all:
    L I J LOSS DELAY JITTER    of what I sends to J, LOSS (0 to 1) is lost. The rest comes after
                               DELAY milliseconds and up to JITTER more, drawn for each frame
    R I KBIT                   what I sends goes through a line of so many kbit a second with a
                               queue (0: no limit)
    C                          nothing is lost or late any more
Each is answered by a line. The switch ends with its input."""
import contextlib
import errno
import fcntl
import heapq
import itertools
import os
import random
import select
import struct
import sys
import time

SIZE, AT_ONCE = 2048, 64
TUNSETIFF, TAP, NO_PI = 0x400454ca, 2, 0x1000
QUEUE = 4.0         # seconds: what a line would take longer for is lost
# What a device says whose machine doesn't read: it loses what comes, as a wire does.
LOST = (errno.EAGAIN, errno.EIO, errno.ENOBUFS)


def open_device(name):
    device = os.open("/dev/net/tun", os.O_RDWR | os.O_NONBLOCK)
    fcntl.ioctl(device, TUNSETIFF, struct.pack("16sH22x", name.encode(), TAP | NO_PI))
    return device


class Switch:
    """Its devices, and the frames that aren't due yet; those of one moment go in their turn."""

    def __init__(self, names):
        self.devices, self.turns, self.late = [open_device(it) for it in names], itertools.count(), []
        self.heal()

    def heal(self):
        every = range(len(self.devices))
        self.ways = [[(0.0, 0.0, 0.0) for _ in every] for _ in every]   # the loss, and seconds of delay and jitter
        self.lines = [[0.0, 0.0] for _ in every]            # of each sender: kbit a second, and when its line is free

    # ---- frames

    def pass_on(self, to, frame):
        try:
            os.write(self.devices[to], frame)
        except OSError as fault:
            if fault.errno not in LOST:
                print(f"switch: a device: {fault}", file=sys.stderr)

    def leave_line(self, sender, size, now):
        """When a frame has left the line of its sender; None: its queue is full."""
        kbit, free_at = self.lines[sender]
        if not kbit:
            return now
        if free_at - now > QUEUE:
            return None
        self.lines[sender][1] = max(free_at, now) + size * 8 / kbit / 1000
        return self.lines[sender][1]

    def forward(self, sender, frame):
        """One frame goes where its address says, or to all."""
        now = time.monotonic()
        due = self.leave_line(sender, len(frame), now)
        if due is None:
            return
        for to in range(len(self.devices)) if frame[0] & 1 else (frame[5] - 1,):
            if to == sender or not 0 <= to < len(self.devices):
                continue
            loss, delay, jitter = self.ways[sender][to]
            if loss and random.random() < loss:
                continue
            moment = due + delay + (jitter and jitter * random.random())
            if moment <= now:
                self.pass_on(to, frame)
            else:
                heapq.heappush(self.late, (moment, next(self.turns), to, frame))

    def read(self, sender):
        with contextlib.suppress(OSError):     # there is no more
            for _ in range(AT_ONCE):
                frame = os.read(self.devices[sender], SIZE)
                if len(frame) > 5:
                    self.forward(sender, frame)

    def pass_due(self):
        """Passes what is due: the seconds until more is, a second at most."""
        while self.late and self.late[0][0] <= time.monotonic():
            _, _, to, frame = heapq.heappop(self.late)
            self.pass_on(to, frame)
        return min(1.0, max(0.0, self.late[0][0] - time.monotonic())) if self.late else 1.0

    # ---- commands

    def named(self, word):
        return range(len(self.devices)) if word == "*" else [range(len(self.devices))[int(word)]]

    def obey(self, kind, *words):
        if kind == "L":
            loss, delay, jitter = map(float, words[2:])
            for sender, to in itertools.product(*map(self.named, words[:2])):
                self.ways[sender][to] = (loss, delay / 1000, jitter / 1000)
        elif kind == "R":
            for sender in self.named(words[0]):
                self.lines[sender] = [float(words[1]), 0.0]
        elif kind == "C":
            self.heal()
        else:
            raise ValueError(kind)

    def answer(self, command):
        try:
            self.obey(*command.split())
            return "done"
        except (IndexError, TypeError, ValueError):
            return "no such command"

    def run(self):
        print("ready", flush=True)
        polled, places, text = select.poll(), {it: place for place, it in enumerate(self.devices)}, b""
        for it in (*self.devices, 0):
            polled.register(it, select.POLLIN)
        while True:
            for device, _ in polled.poll(self.pass_due() * 1000):
                if device in places:
                    self.read(places[device])
                    continue
                more = os.read(device, SIZE)
                if not more:
                    return
                *commands, text = (text + more).split(b"\n")
                for it in commands:
                    print(self.answer(it.decode()), flush=True)


if __name__ == "__main__":
    Switch(sys.argv[1:]).run()
