"""The minimal cut sets of the workbench's observer, listed in the background. They are read line by line; kept are those with the
fewest events, as many as there is room for, and all are counted. Not proved: the list is the program's."""
import contextlib
import os
import sys
import threading
import time

from command import TOP, CouldNot
from open.calls import TooLong
from visible import visible

MOST_CUTS = 200_000
MOST_BYTES = 64 << 20
MOST_PAGE = 1000
WHY_SECONDS = 60


class CutSets:
    """A listing that runs, is refused or is there. `kept` has for each number of events its cut sets, each with its line."""

    def __init__(self, calls, file, name, options):
        self.calls, self.file, self.name, self.options = calls, file, name, options
        self.state, self.began, self.said = "running", time.monotonic(), {}
        self.counts, self.kept, self.room, self.left = {}, {}, MOST_BYTES, MOST_CUTS
        self.lock = threading.Lock()

    def start(self):
        threading.Thread(target=self.list, daemon=True).start()

    def words(self):
        return ["cuts", *self.options, self.file]

    def list(self):
        try:
            self.read(self.calls.start_program(self.words()))
        except CouldNot as error:
            self.state, self.said = "refused", {"text": str(error), "why": "", "is_whole": True}

    def read(self, process):
        """Reads the listing to its end."""
        last = b""
        with process.stdout as lines:
            for line in lines:
                if line.startswith(b"{"):
                    self.take(line.strip()[1:-1].decode("latin-1"))
                last = line
        status = process.wait()
        self.calls.forget(process)
        if status == 0 and last.startswith(b"count "):
            self.state = "listed"
        else:
            self.refuse(last.decode("latin-1").strip() or "the program ended with status %d" % status)

    def take(self, text):
        """Counts a cut set, and keeps it where there is room, or where larger ones make room."""
        size = text.count(",") + 1 if text else 0
        with self.lock:
            self.counts[size] = self.counts.get(size, 0) + 1
            self.kept.setdefault(size, []).append((sum(self.counts.values()), text))
            self.left -= 1
            self.room -= len(text)
            while self.left < 0 or self.room < 0:
                largest = max(self.kept)
                self.room += len(self.kept[largest].pop()[1])
                self.left += 1
                if not self.kept[largest]:
                    del self.kept[largest]

    def refuse(self, text):
        """A refusal, at once by its line and then as `why` shows it."""
        self.said, content = {"text": text, "why": "", "is_whole": False}, b""
        self.state = "refused"
        why = [sys.executable, os.path.join(TOP, "tools", "why"), *self.words()]
        with contextlib.suppress(CouldNot, TooLong):
            content = self.calls.finish(self.calls.start(why), seconds=WHY_SECONDS)[1]
        self.said = {"text": text, "why": visible(content.decode("utf-8", "replace")).replace(self.file, self.name), "is_whole": True}

    def page(self, size, text, first, most):
        """Some of the cut sets that are kept, the smallest first: those with this number of events and with all these words."""
        with self.lock:
            counts, total = sorted(self.counts.items()), sum(self.counts.values())
            kept = {one: list(cuts) for one, cuts in self.kept.items()} if self.state == "listed" else {}
        answer = {"state": self.state, "seconds": round(time.monotonic() - self.began), "count": total}
        if self.state != "listed":
            return {**answer, **self.said}
        words = text.split()
        found = [one for each in sorted(kept) if size is None or each == size for one in kept[each] if all(word in one[1] for word in words)]
        shown = [[number, cut.split(", ") if cut else []] for number, cut in found[first:first + min(most, MOST_PAGE)]]
        return {**answer, "sizes": counts, "kept": sum(map(len, kept.values())), "found": len(found), "first": first, "cuts": shown}
