"""Runs of the built program, and the checks that are made of them."""

import os
import shutil
import subprocess
import threading

SECONDS = 60

# The command that runs a program under a clock that is off, of the Debian package of that name.
CLOCK = "faketime"

# The largest file that the program copies today.
LARGE = (bytes(range(251)) * 33_422)[:8_388_607]


class Checks:
    """Prints each check, and counts them."""

    def __init__(self):
        self.passed = 0
        self.failed = 0

    def check(self, name, holds, shown=""):
        self.passed += bool(holds)
        self.failed += not holds
        print(("ok   " if holds else "FAIL ") + name + (f"  [{shown}]" if shown else ""), flush=True)

    def status(self):
        """Prints the counts; the status of a script that made these checks."""
        print(f"{self.passed} passed, {self.failed} failed")
        return 1 if self.failed else 0


def line_of(shown):
    """The status and the lines of a run, cut where they are long."""
    status, out, err = shown
    line = (out + err).strip()
    return f"{status}: " + (line if len(line) <= 200 else line[:120] + " .. " + line[-70:])


def has_clock():
    """Whether this machine can run a program under a clock that is off."""
    return shutil.which(CLOCK) is not None


class Runs:
    """Runs a program in a folder; a run that is still there when the block is left is ended."""

    def __init__(self, program, folder):
        self.program = program
        self.folder = folder
        self.lock = threading.Lock()
        self.children = set()
        self.ended = False

    def __enter__(self):
        return self

    def __exit__(self, *_):
        with self.lock:
            self.ended = True
            for child in self.children:
                child.kill()

    def run(self, words, env, stdout=subprocess.PIPE, seconds=SECONDS, clock=""):
        """The status of a run and what it wrote to its two outputs; no status where it takes longer than this.

        Under a clock as `+1h` the program sees a time that much later.
        """
        set_clock = [CLOCK, "--exclude-monotonic", "-f", clock] if clock else []
        with self.lock:
            if self.ended:
                return None, "", "it was not run"
            child = subprocess.Popen(
                [*set_clock, self.program, *words],
                cwd=self.folder,
                env={"PATH": os.environ["PATH"], **env},
                stdin=subprocess.DEVNULL,
                stdout=stdout,
                stderr=subprocess.PIPE,
            )
            self.children.add(child)
        try:
            out, err = child.communicate(timeout=seconds)
            return child.returncode, (out or b"").decode(), err.decode()
        except subprocess.TimeoutExpired:
            child.kill()
            child.communicate()
            return None, "", f"it still ran after {seconds} seconds"
        finally:
            with self.lock:
                self.children.discard(child)

    def copy(self, file, uri, url, env, **more):
        return self.run(["cp", file, uri, "--endpoint-url", url], env, **more)

    def tries(self, attempts):
        """The variables of a run that makes so many attempts of a request."""
        name = f"attempts-{attempts}"
        self.write(name, f"[default]\nmax_attempts = {attempts}\n".encode())
        return {"AWS_CONFIG_FILE": os.path.join(self.folder, name)}

    def write(self, name, content):
        with open(os.path.join(self.folder, name), "wb") as file:
            file.write(content)
