"""Calls of the program for the workbench: some at a time, each with a limit of time, and all of them ended with it. Not proved."""
import subprocess
import threading
import time

import program
from command import CouldNot, shown

SECONDS = 120
MOST_AT_ONCE = 4


class TooLong(Exception):
    """A call took more than its seconds."""


class Calls:
    """The calls that run now; `end` ends them, and lets no other one begin."""

    def __init__(self):
        self.places, self.lock = threading.BoundedSemaphore(MOST_AT_ONCE), threading.Lock()
        self.running, self.is_ended = set(), False

    def start(self, words, takes=subprocess.DEVNULL, env=None):
        """A process of these words, which writes to a pipe."""
        with self.lock:
            if self.is_ended:
                raise CouldNot("this text of the model is no longer the one that is shown")
            try:
                process = subprocess.Popen(words, stdin=takes, stdout=subprocess.PIPE, stderr=subprocess.DEVNULL, env=env)
            except OSError as error:
                raise CouldNot("%s: %s" % (shown(words[0]), error.strerror)) from error
            self.running.add(process)
            return process

    def start_program(self, words, takes=subprocess.DEVNULL):
        found = program.found()
        return self.start([*found.words, *words], takes, {} if found.is_unproved else None)

    def finish(self, process, written=None, seconds=SECONDS):
        """The status of a process and what it wrote; TooLong where it took more than its seconds, and then it has ended."""
        try:
            content = process.communicate(written, timeout=seconds)[0]
        except subprocess.TimeoutExpired:
            process.kill()
            process.communicate()
            raise TooLong from None
        finally:
            self.forget(process)
        return process.returncode, content

    def forget(self, process):
        with self.lock:
            self.running.discard(process)

    def run(self, words, script=""):
        """The status and the text of a call of the program, which reads the script, and the milliseconds that it took."""
        began = time.monotonic()
        with self.places:
            status, content = self.finish(self.start_program(words, subprocess.PIPE), script.encode("latin-1"))
        return status, content.decode("latin-1"), round(1000 * (time.monotonic() - began), 1)

    def filter(self, words, content):
        """What another program than that of the models writes for this content."""
        with self.places:
            return self.finish(self.start(words, subprocess.PIPE), content)

    def end(self):
        with self.lock:
            self.is_ended = True
            for process in self.running:
                process.kill()
