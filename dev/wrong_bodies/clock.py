"""Running commands while there is time."""

import os
import signal
import subprocess
import sys
from threading import Condition, Timer


class Ended(Exception):
    """There is no time left, or the script was told to end."""


class Clock:
    """Runs commands while there is time. Once there is none it ends those that run, and lets no
    other begin."""

    def __init__(self):
        """Makes a clock on which there is time, and no command runs."""
        self.is_over, self.running, self.turn = False, set(), Condition()

    def end_after(self, seconds):
        """Has the time end so many seconds from now."""
        timer = Timer(max(seconds, 0), self.end)
        timer.daemon = True
        timer.start()

    def end(self, *_):
        """Ends the time, and the commands that run."""
        with self.turn:
            self.is_over = True
            for it in self.running:
                if it.poll() is None:
                    os.killpg(it.pid, signal.SIGKILL)
            self.turn.notify_all()

    def end_on_signals(self):
        """Has a signal that ends the script end the commands that run before."""

        def stop(number, _):
            """Ends the commands that run, and the script with the status of this signal."""
            self.end()
            sys.exit(128 + number)

        for it in (signal.SIGTERM, signal.SIGINT, signal.SIGHUP):
            signal.signal(it, stop)

    def begin(self, words, folder):
        """Begins a command in a group of its own, so that all that it starts is ended with it."""
        how = {"cwd": folder, "text": True, "errors": "replace", "process_group": 0}
        how |= {"stdin": subprocess.DEVNULL, "stdout": subprocess.PIPE, "stderr": subprocess.STDOUT}
        with self.turn:
            if self.is_over:
                raise Ended
            started = subprocess.Popen(words, **how)
            self.running.add(started)
        return started

    def run(self, words, folder):
        """Runs a command in a folder, and returns its status and what it said, or raises Ended if no time is left when it ends."""
        # Once more if it was killed, most likely because memory ran out.
        for _ in range(2):
            started = self.begin(words, folder)
            text = started.communicate()[0]
            with self.turn:
                self.running.discard(started)
                if self.is_over:
                    raise Ended
            if started.returncode != -signal.SIGKILL:
                break
        return started.returncode, text
