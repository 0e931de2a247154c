"""What all tests share: where modules are looked for, which signals are heard, and how a test waits for a program that it started. No verdict depends
on how long a test waits: it waits for what is to come, however long that takes on a slow or busy machine."""

import contextlib
import os
import pty
import re
import signal
import subprocess
import sys
import threading
import time
from pathlib import Path

sys.path[:0] = [os.path.dirname(os.path.dirname(os.path.abspath(__file__))), os.path.dirname(os.path.abspath(__file__))]

# Tests interrupt the programs that they start, and what a program ignores the programs that it starts ignore too: a shell's job in the background
# ignores SIGINT, and what nohup starts SIGHUP.
signal.signal(signal.SIGINT, signal.default_int_handler)
signal.signal(signal.SIGHUP, signal.SIG_DFL)

# The limit of each wait. It is there to end a test that hangs, and no machine is so slow that another test comes to it.
SECONDS = 600


def wait_until(holds, process=None):
    """Waits until something holds, and gives it. It is an error where the process ended without that."""
    limit = time.monotonic() + SECONDS
    while True:
        ended = process is not None and process.poll() is not None
        found = holds()
        if found:
            return found
        assert not ended, f"the process ended, with status {process.returncode}"
        assert time.monotonic() < limit, f"not so in {SECONDS} s"
        time.sleep(0.005)


def opened(pipe, process):
    """A named pipe opened for writing, when the process has opened it for reading: until it is closed here, the process does not come to its end."""
    def tried():
        with contextlib.suppress(OSError):  # nobody reads it yet
            return open(os.open(pipe, os.O_WRONLY | os.O_NONBLOCK), "wb")

    file = wait_until(tried, process)
    os.set_blocking(file.fileno(), True)
    return file


def state(process):
    """What a process does, by the system's letter: it sleeps (S), is stopped (T), has ended (Z)."""
    try:
        return Path(f"/proc/{process.pid}/stat").read_text().rsplit(")", 1)[1].split()[0]
    except OSError:
        return "Z"


@contextlib.contextmanager
def started(words, **more):
    """A program that has begun, in a group of its own. Where the test fails meanwhile, the group is killed."""
    with subprocess.Popen(words, start_new_session=True, **more) as process:
        try:
            yield process
        except BaseException:
            with contextlib.suppress(ProcessLookupError):
                os.killpg(process.pid, signal.SIGKILL)
            raise


class Terminal:
    """A pseudo terminal. What programs show on it is read all the time, so that it never fills and no program waits for its reader."""

    def __init__(self):
        self.ours, self.theirs = pty.openpty()
        self.shown, self.ended = b"", False
        self.changed = threading.Condition()
        self.reader = threading.Thread(target=self._read, daemon=True)
        self.reader.start()

    def __enter__(self):
        return self

    def __exit__(self, *given):
        self.leave()
        self.reader.join(SECONDS)

    def _read(self):
        while not self.ended:
            try:
                more = os.read(self.ours, 4_096)
            except OSError:  # no program has it any more, and all is read
                more = b""
            with self.changed:
                self.shown, self.ended = self.shown + more, not more
                self.changed.notify_all()
        os.close(self.ours)

    def leave(self):
        """Leaves it to the programs that have it. When they have ended it has ended."""
        if self.theirs is not None:
            os.close(self.theirs)
            self.theirs = None

    def until(self, words):
        """Waits until words are shown. It is an error where the programs end without them."""
        with self.changed:
            self.changed.wait_for(lambda: self.ended or re.search(words, self.text()), SECONDS)
            assert re.search(words, self.text()), f"'{words}' is not shown: {self.text()!r}"

    def whole(self):
        """All that was shown, when the programs have ended."""
        self.leave()
        with self.changed:
            assert self.changed.wait_for(lambda: self.ended, SECONDS), f"a program still has the terminal: {self.text()!r}"
            return self.text()

    def text(self):
        return self.shown.decode("utf-8", "ignore")
