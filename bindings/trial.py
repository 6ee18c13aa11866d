"""What the tests of bin/claim, of bin/uptime and of the tool `sheet` share: a scratch folder, and runs with their outputs and signals."""

import os
import resource
import shutil
import signal
import subprocess
import tempfile
import time
import unittest

NOBODY = 65534
SIGNALS = (signal.SIGHUP, signal.SIGINT, signal.SIGQUIT, signal.SIGTERM)


def before_start():
    """Signals end the program, whatever runs the tests, and it leaves no core."""
    for number in (*SIGNALS, signal.SIGPIPE):
        signal.signal(number, signal.SIG_DFL)
    resource.setrlimit(resource.RLIMIT_CORE, (0, 0))


def until(what, seconds=10):
    """Waits until what() is true, and tells whether it came to be."""
    end = time.monotonic() + seconds
    while not what() and time.monotonic() < end:
        time.sleep(0.02)
    return what()


def running(pid):
    """Whether a process runs: one that has ended and that nobody has waited for does not."""
    try:
        with open(f"/proc/{pid}/stat") as stat:
            return stat.read().rpartition(")")[2].split()[0] != "Z"
    except FileNotFoundError:
        return False


class Trial(unittest.TestCase):
    def setUp(self):
        self.scratch = tempfile.mkdtemp()
        os.chmod(self.scratch, 0o755)
        self.addCleanup(shutil.rmtree, self.scratch)
        self.temporary = self.path("temporary")
        os.mkdir(self.temporary)
        os.chmod(self.temporary, 0o1777)
        self.env = {**os.environ, "TMPDIR": self.temporary}

    def path(self, *parts):
        return os.path.join(self.scratch, *parts)

    def write(self, path, text, mode=0o644):
        os.makedirs(os.path.dirname(path), exist_ok=True)
        with open(path, "wb" if isinstance(text, bytes) else "w") as file:
            file.write(text)
        os.chmod(path, mode)

    def read(self, path):
        with open(path, "rb") as file:
            return file.read()

    def start(self, *args, stdin=subprocess.DEVNULL, out=subprocess.PIPE, err=subprocess.PIPE, cwd=None, **more):
        return subprocess.Popen(
            args, cwd=cwd or self.scratch, env=self.env, stdin=stdin, stdout=out, stderr=err, preexec_fn=before_start, **more)

    def ended(self, process):
        """The status, what was printed and what was said; no program leaves a temporary file."""
        out, said = process.communicate(timeout=30)
        self.assertEqual(os.listdir(self.temporary), [])
        return process.returncode, (out or b"").decode(), (said or b"").decode()

    def run_it(self, *args, **more):
        return self.ended(self.start(*args, **more))

    def unread_pipe(self):
        """A pipe that nobody reads."""
        reader, writer = os.pipe()
        os.close(reader)
        return os.fdopen(writer, "wb")

    def outputs_that_cannot_be_written(self, *args):
        """Runs with standard output full, closed, and a pipe that nobody reads: the status and what was said of each."""
        with open("/dev/full", "w") as full:
            yield self.run_it(*args, out=full)
        yield self.run_it("sh", "-c", 'exec "$@" >&-', "sh", *args)
        with self.unread_pipe() as unread:
            yield self.run_it(*args, out=unread)

    def as_nobody(self):
        """The words that start a process as a user who may not write what root made; the test is left out where there is no such."""
        if os.geteuid() != 0:
            self.skipTest("only root can run a process as another user")
        words = {"user": NOBODY, "group": NOBODY, "extra_groups": []}
        try:
            subprocess.run(["test", "-x", self.scratch], check=True, **words)
        except (OSError, subprocess.SubprocessError):
            self.skipTest(f"nobody cannot reach {self.scratch}")
        return words
