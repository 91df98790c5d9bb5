"""How far a long run is, told each second on standard error."""

import sys
import threading


class Progress:
    """Tells what is done, and which part of it is, as long as it lasts: `with Progress(is_wanted) as progress: progress.does(..)`."""

    def __init__(self, is_wanted):
        self.is_wanted = is_wanted
        self.what, self.part = "", None
        self.ended = threading.Event()
        self.teller = threading.Thread(target=self.tells, daemon=True)

    def __enter__(self):
        if self.is_wanted:
            self.teller.start()
        return self

    def __exit__(self, *_):
        self.ended.set()
        if self.is_wanted:
            self.teller.join()

    def does(self, what, part=None):
        """From here on this is done; `part` gives how much of it is, from 0 to 1, or None where that isn't known."""
        self.what, self.part = what, part

    def tells(self):
        seconds = 0
        while not self.ended.wait(1):
            seconds += 1
            part = self.part and self.part()
            told = f", {min(100, int(100 * part))} %" if part is not None else ""
            print(f"losses: {seconds} s: {self.what}{told}", file=sys.stderr, flush=True)
