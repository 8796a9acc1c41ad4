"""A service of several daemons from Debian packages, in a folder of its own, all of which end with the script."""

import contextlib
import getpass
import os
import shutil
import subprocess
import sys
import tempfile
import time

from service import client

SECONDS = 120
POLICY = "/usr/sbin/policy-rc.d"
CLEAN = {"PATH": "/usr/sbin:/usr/bin:/sbin:/bin", "LC_ALL": "C.UTF-8"}


def start_time(pid):
    """When this process started, in ticks of the system; None where there is none that runs."""
    try:
        with open(f"/proc/{pid}/stat") as stat:
            fields = stat.read().rpartition(")")[2].split()
    except OSError:
        return None
    return None if fields[0] == "Z" else fields[19]


@contextlib.contextmanager
def without_starts():
    """Packages that are installed here start no daemons (invoke-rc.d(8))."""
    made = not os.path.exists(POLICY)
    if made:
        with open(POLICY, "w") as file:
            file.write("#!/bin/sh\nexit 101\n")
        os.chmod(POLICY, 0o755)
    try:
        yield
    finally:
        if made:
            os.unlink(POLICY)


def apt_get(*words):
    """Runs apt-get to its end, also where a signal comes: half an installation stands in the way of the next one."""
    apt = subprocess.Popen(
        ["apt-get", "-q", "-o", "DPkg::Lock::Timeout=120", *words],
        stdin=subprocess.DEVNULL,
        stdout=subprocess.PIPE,
        stderr=subprocess.STDOUT,
        text=True,
        env={**os.environ, "DEBIAN_FRONTEND": "noninteractive"},
        start_new_session=True,
    )
    try:
        shown, _ = apt.communicate()
    except KeyboardInterrupt:
        apt.communicate()
        raise
    if apt.returncode != 0:
        sys.exit(f"apt-get {words[0]} failed:\n" + shown[-2_000:])


class Daemon:
    """One daemon, known by its id and its start time."""

    def __init__(self, name, words, log, surroundings):
        self.name = name
        self.log = log
        with open(log, "wb") as output:
            self.process = subprocess.Popen(
                words, stdin=subprocess.DEVNULL, stdout=output, stderr=output, start_new_session=True, **surroundings
            )
        self.started = start_time(self.process.pid)

    def runs(self):
        return self.started is not None and start_time(self.process.pid) == self.started

    def end(self):
        """Nothing of the cluster is kept, so no orderly end is needed."""
        if self.runs():
            self.process.kill()
        self.process.wait()


class Cluster:
    """The daemons and their folder; both go with the block that started them."""

    name = title = ""
    packages = ()
    keys = {}
    other_keys = {}  # of a user who has no right to the buckets of the first

    @classmethod
    def missing(cls):
        """The packages that are not installed."""
        wanted = ["dpkg-query", "-W", "-f=${Package} ${Status}\n", *cls.packages]
        if shutil.which("dpkg-query") is None:
            return list(cls.packages)
        shown = subprocess.run(wanted, capture_output=True, text=True).stdout.splitlines()
        return [name for name in cls.packages if f"{name} install ok installed" not in shown]

    @classmethod
    def install(cls):
        """Installs what is missing; the packages start no daemons of their own."""
        if os.geteuid() != 0 or shutil.which("apt-get") is None:
            sys.exit(f"{cls.title} can be installed by root on Debian alone")
        print("installing " + " ".join(cls.missing()), flush=True)
        with without_starts():
            apt_get("update")
            apt_get("install", "-y", "--no-install-recommends", *cls.missing())

    def __enter__(self):
        self.daemons = []
        self.deadline = time.monotonic() + SECONDS
        self.folder = tempfile.mkdtemp(prefix=self.name + "-")
        try:
            os.mkdir(self.path("log"))
            self.start()
        except BaseException:
            self.__exit__()
            raise
        return self

    def __exit__(self, *_):
        for daemon in reversed(self.daemons):
            daemon.end()
        shutil.rmtree(self.folder)

    def path(self, *names):
        return os.path.join(self.folder, *names)

    def write(self, text, *names):
        with open(self.path(*names), "w") as file:
            file.write(text)

    def surroundings(self):
        return {"cwd": self.folder, "env": {**CLEAN, "HOME": self.folder, "USER": getpass.getuser()}}

    def attempt(self, *words):
        """Runs a command."""
        return subprocess.run(
            words, stdin=subprocess.DEVNULL, capture_output=True, text=True, timeout=SECONDS, **self.surroundings()
        )

    def step(self, *words):
        """Runs a command that has to go well."""
        done = self.attempt(*words)
        if done.returncode != 0:
            sys.exit(f"{words[0]} failed:\n" + (done.stdout + done.stderr)[-2_000:])

    def spawn(self, name, *words):
        """Starts a daemon."""
        self.daemons.append(Daemon(name, words, self.path("log", name), self.surroundings()))

    def wait_for(self, what, holds):
        """Waits until this holds, while all daemons run."""
        while not holds():
            for daemon in self.daemons:
                if not daemon.runs():
                    with open(daemon.log, errors="replace") as log:
                        sys.exit(f"{daemon.name} ended while {what} was waited for:\n" + log.read()[-2_000:])
            if time.monotonic() > self.deadline:
                sys.exit(f"{what} did not come in {SECONDS} seconds")
            time.sleep(0.2)

    def client(self):
        return client(self.url, self.keys)
