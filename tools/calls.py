"""Commands that run side by side, each with a limit in time, and each in a process group of its own, which ends as a whole."""
import os
import signal
import subprocess
import tempfile
import threading


class Ended(Exception):
    """All commands have been ended, and none begins any more."""


class Calls:
    def __init__(self):
        self.running, self.changing, self.is_over = set(), threading.Lock(), False

    def call(self, words, seconds, **how):
        """The status of a command, and all that it wrote. One that runs longer is ended, and has the status None."""
        with tempfile.TemporaryFile() as output:
            run = self.begin(words, stdin=subprocess.DEVNULL, stdout=output, stderr=subprocess.STDOUT, start_new_session=True, **how)
            try:
                run.wait(seconds)
                status = run.returncode
            except subprocess.TimeoutExpired:
                status = None
            finally:
                self.finish(run)
            output.seek(0)
            return status, output.read().decode(errors="replace")

    def begin(self, words, **how):
        with self.changing:
            if self.is_over:
                raise Ended
            run = subprocess.Popen(words, **how)
            self.running.add(run)
            return run

    def finish(self, run):
        with self.changing:
            self.running.discard(run)
            end(run)

    def end(self):
        """Ends all commands."""
        with self.changing:
            self.is_over = True
            for run in self.running:
                end(run)


def end(run):
    """Ends a command with its group, whose number is nobody else's until it has been waited for."""
    if run.poll() is None:
        os.killpg(run.pid, signal.SIGKILL)
        run.wait()
