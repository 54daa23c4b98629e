"""./rpj as a process: run to its end, or with an input that is written bit by bit."""
import os
import select
import subprocess
import sys

sys.dont_write_bytecode = True
from reading import ROOT

RPJ = ROOT / "rpj"
PATIENCE = 60  # seconds for what must come
QUIET = 0.2  # seconds in which nothing may come


def ran(*words, data=b"", **ways):
    """Status, output, and whether there was a message."""
    given = {} if "stdin" in ways else {"input": data}
    ways.setdefault("stdout", subprocess.PIPE)
    done = subprocess.run([RPJ, *words], stderr=subprocess.PIPE, timeout=PATIENCE, **given, **ways)
    return done.returncode, done.stdout, bool(done.stderr)


class Running:
    """./rpj --stream with an input that is written bit by bit."""

    def __init__(self, *words, **ways):
        ways.setdefault("stdin", subprocess.PIPE)
        self.process = subprocess.Popen([RPJ, "--stream", *words], stdout=subprocess.PIPE, stderr=subprocess.PIPE, bufsize=0, **ways)

    def write(self, data):
        self.process.stdin.write(data)

    def read(self, n):
        """The next n bytes, or those that came in time."""
        got = b""
        while len(got) < n and select.select([self.process.stdout], [], [], PATIENCE)[0]:
            more = os.read(self.process.stdout.fileno(), n - len(got))
            if not more:
                break
            got += more
        return got

    def is_quiet(self):
        return not select.select([self.process.stdout], [], [], QUIET)[0]

    def end(self):
        """Its status, the rest of its output, and whether there was a message; the input stays open."""
        try:
            status = self.process.wait(timeout=PATIENCE)
        except subprocess.TimeoutExpired:
            self.process.kill()
            status = "still running"
        rest = b"" if self.process.stdout.closed else self.process.stdout.read()
        said = bool(self.process.stderr.read())
        if self.process.stdin:
            self.process.stdin.close()
        return status, rest, said
