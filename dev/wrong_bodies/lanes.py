"""How many commands run side by side, by the memory and the disk that are free."""

import heapq
import os
import shutil
import tempfile
from contextlib import contextmanager
from pathlib import Path

from wrong_bodies.clock import Ended

# What has to be free of memory before a further proof begins, in KiB: it takes up to 4 GiB, and those that run still grow.
ROOM = 8 << 20
# And before a further check of edits begins, in KiB: it leaves the room of a proof, which would otherwise wait for its end.
ROOM_OF_EDITS = 12 << 20
# What has to be free of the disk before either begins, in bytes: each works on a copy of its crate, and of what was proved of it.
ROOM_ON_DISK = 4 << 30
# How many seconds either waits before it looks for room again.
PAUSE = 5


def lane_count():
    """How many checks may run side by side: so many as RT_JOBS says, or as there are processors."""
    return int(os.environ.get("RT_JOBS") or len(os.sched_getaffinity(0)))


def free_memory():
    """How much memory the machine has for a further program, in KiB."""
    lines = Path("/proc/meminfo").read_text().splitlines()
    return next(int(it.split()[1]) for it in lines if it.startswith("MemAvailable:"))


def has_disk():
    """Whether the disk that holds the copies has room for a further one."""
    return shutil.disk_usage(tempfile.gettempdir()).free > ROOM_ON_DISK


class Lanes:
    """So many checks of edits side by side, and a further one only if there is memory; a proof waits for memory alone, and
    either for the disk. Of those that wait, the one of the lowest place goes first. None waits once there is no time left, or
    if the disk is full and nothing runs that could free it."""

    def __init__(self, count, clock):
        """Makes so many lanes, all of them free, for as long as a clock has time."""
        self.count, self.busy, self.waiting, self.clock, self.turn = count, 0, [], clock, clock.turn

    def has_room(self, is_proof):
        """Whether a further proof, or else a further check of edits, may begin."""
        if not has_disk():
            return False
        if self.busy == 0:
            return True
        if is_proof:
            return free_memory() > ROOM
        return self.busy < self.count and free_memory() > ROOM_OF_EDITS

    def is_over(self):
        """Whether nothing further begins: no time is left, or the disk is full and nothing runs that could free it."""
        return self.clock.is_over or self.busy == 0 and not has_disk()

    @contextmanager
    def lane(self, is_proof, place):
        """Waits for a lane by the place among those that wait and holds it meanwhile, or raises Ended if there is no time, or no disk."""
        with self.turn:
            heapq.heappush(self.waiting, place)
            while not (self.is_over() or self.waiting[0] == place and self.has_room(is_proof)):
                self.turn.wait(PAUSE)
            if self.is_over():
                raise Ended
            heapq.heappop(self.waiting)
            self.busy += 1
            self.turn.notify_all()
        try:
            yield
        finally:
            with self.turn:
                self.busy -= 1
                self.turn.notify_all()
