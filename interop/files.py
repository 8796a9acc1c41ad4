"""Files of a real disk: what the program `outside_rows` does there and answers, beside what Python sees.

As root it also mounts a small disk in memory, and tries folders without permission as the user nobody, who has no
rights over them. Another user tries these folders alone, and what needs root is skipped.
"""

import contextlib
import os
import resource
import shutil
import socket
import subprocess
import tempfile

NOBODY = 65534
IS_ROOT = os.geteuid() == 0
ODD = ["a b", "é", "\n", "-x", "*", "'", '"', "\\", "..x", "x..", " ", "%2F", "a.b", "ab", "\x7f", "日本", "~", "#", "&"]
ODD.append("x" * 251)
STAMP = 1_369_353_600_000_007
HEADING = "== files"


def put(path, content=b""):
    os.makedirs(os.path.dirname(path), exist_ok=True)
    with open(path, "wb") as file:
        file.write(content)


def content(path):
    with open(path, "rb") as file:
        return file.read()


def leftovers(folder):
    """The temporary files below a folder."""
    return [name for _, _, names in os.walk(folder) for name in names if name.endswith(".s3part")]


class Calls:
    """The program on the files of the disk, which answers call by call."""

    def __init__(self, disk, under=(), **how):
        self.disk = disk
        pipes = {"stdin": subprocess.PIPE, "stdout": subprocess.PIPE}
        self.running = subprocess.Popen([*under, disk.program], cwd=disk.top, **pipes, **how)

    def __enter__(self):
        self.answer(HEADING)
        self.answer("disk")
        return self

    def __exit__(self, *_):
        self.running.stdin.close()
        self.running.wait(timeout=60)
        self.running.stdout.close()

    def answer(self, call):
        self.running.stdin.write(call.encode() + b"\n")
        self.running.stdin.flush()
        return self.running.stdout.readline().decode().removesuffix("\n").partition(" => ")[2]

    def says(self, what, call, *wanted):
        """A check that the call is answered by one of these."""
        answer = self.answer(call)
        self.disk.check(what, answer in wanted, "" if answer in wanted else f"{answer} in place of {wanted[0]}")


class Disk:
    """Where the program runs, and its checks."""

    def __init__(self, checks, program, top):
        self.checks = checks
        self.program = program
        self.top = top

    def check(self, what, holds, shown=""):
        self.checks.check("files: " + what, holds, shown)

    def calls(self, *under, **how):
        return Calls(self, under, **how)

    def whole(self, *calls):
        """The whole output of some calls, in which names may have line ends."""
        given = "".join(call + "\n" for call in (HEADING, *calls))
        ran = subprocess.run([self.program], input=given.encode(), capture_output=True, timeout=300, check=True)
        return ran.stdout.removeprefix(f"{HEADING}\n".encode())

    def is_clean(self, where, folder):
        self.check(f"no temporary file is left {where}", leftovers(folder) == [], ", ".join(leftovers(folder)))


def many_files(disk, folder):
    """20,000 files with odd names: each is listed once, in byte order of whole paths, with its size and time."""
    for number in range(20_000):
        name = f"{ODD[number % 20]}{number // 400:03}"
        put(f"{folder}/{ODD[number // 20 % 20]}/{name}", b"x" * (number % 7))
    os.symlink("a b", f"{folder}/link")
    found = {}
    for place, _, names in os.walk(folder, followlinks=True):
        for name in names:
            path = os.path.join(place, name)
            found[os.path.relpath(path, folder).encode()] = os.stat(path)
    entries = [b"%s %d %d, " % (key, found[key].st_size, found[key].st_mtime_ns // 1000) for key in sorted(found)]
    wanted = b"disk => done\nlist %s => %s0 unnamed\n" % (folder.encode(), b"".join(entries))
    disk.check("a tree of 20,000 files with odd names, 1,000 of them also by a link to a folder", len(found) == 21_000)
    disk.check("each is listed, in order, with size and time", disk.whole("disk", f"list {folder}") == wanted)


def shapes(disk, folder):
    """What stands among files: a fifo, a socket, links, names of 255 bytes and names that are no text."""
    put(f"{folder}/t/a", b"xxx")
    put(f"{folder}/t/" + "n" * 255, b"x")
    os.mkfifo(f"{folder}/t/fifo")
    held = socket.socket(socket.AF_UNIX)
    held.bind(f"{folder}/t/socket")
    held.close()
    os.symlink("nowhere", f"{folder}/t/broken")
    os.symlink("a", f"{folder}/t/link")
    put(os.fsdecode(os.fsencode(folder) + b"/t/\xff"))
    with disk.calls() as calls:
        calls.says("fifo, socket, broken link, link to a file, 255 bytes, no text", f"walk {folder}/t", "3 2 1 7")
        calls.says("an absent root", f"walk {folder}/none", "0 0 0 0")
        calls.says("a root that is a file", f"walk {folder}/t/a", "0 0 0 0")
        calls.says("a root that is a fifo", f"walk {folder}/t/fifo", "0 0 0 0")
        calls.says("a fifo is not read", f"read 0 {folder}/t/fifo", "Failed")
        calls.says("a fifo is not replaced", f"make 1 {folder}/t/fifo", "Failed")
        calls.says("a fifo gets no time", f"stamp 1 {folder}/t/fifo", "Err(Failed)")
        calls.says("the names of a fifo are a fault", f"names {folder}/t/fifo", "Failed")
        calls.says("a link is what it leads to", f"size {folder}/t/link", "3")
        calls.says("a broken link is absent", f"kind {folder}/t/broken", "Ok(Absent)")


def deep_folders(disk, folder):
    """A file in so many folders, each with a short name, one in the other; and a link back to one above it."""
    with disk.calls() as calls:
        for count, answer in ((128, "1 0 0 1"), (129, "TooDeep")):
            put(f"{folder}/{count}" + "/x" * count + "/f", b"x")
            calls.says(f"{count} folders, one in the other", f"walk {folder}/{count}", answer)
        put(f"{folder}/round/x/f", b"x")
        os.symlink("..", f"{folder}/round/x/up")
        calls.says("a link that leads back is not followed for ever", f"walk {folder}/round", "TooDeep", "Files")


def read_on(calls, path, at, size):
    """The answer to the last read, which fails, gives nothing or ends the file."""
    while True:
        answer = calls.answer(f"read {at} {path}")
        at += len(answer) - 2
        if answer in ("Failed", '""') or at >= size:
            return answer


def changed_files(disk, folder):
    """A file that is another one than it was when it was looked at is never read as if it were the same."""
    path = f"{folder}/f"

    def shrinks():
        os.truncate(path, 4)

    def grows():
        put(path, b"abcdefg")

    def is_replaced():
        put(f"{folder}/new", b"ABCDEF")
        os.utime(f"{folder}/new", ns=(0, 0))
        os.rename(f"{folder}/new", path)

    def becomes_a_fifo():
        os.unlink(path)
        os.mkfifo(path)

    def becomes_a_folder():
        os.unlink(path)
        os.mkdir(path)

    def is_touched():
        os.utime(path, ns=(0, 0))

    for change in (shrinks, grows, is_replaced, is_touched, becomes_a_fifo, becomes_a_folder):
        for pieces in (0, 1):
            if os.path.isdir(path):
                os.rmdir(path)
            elif os.path.lexists(path):
                os.unlink(path)
            put(path, b"abcdef")
            with disk.calls() as calls:
                calls.answer(f"kind {path}")
                for _ in range(pieces):
                    calls.answer(f"read 0 {path}")
                change()
                answer = read_on(calls, path, 3 * pieces, 6)
            # What was open stays the file that was looked at, whatever has its name since.
            wanted = '"def"' if pieces and change not in (shrinks, grows, is_touched) else "Failed"
            when = "between two pieces" if pieces else "before its first piece"
            what = change.__name__.replace("_", " ")
            disk.check(f"a file that {what} {when}", answer == wanted, "" if answer == wanted else answer)


def destinations(disk, folder):
    """What is put together replaces its destination, or leaves it as it was."""
    put(f"{folder}/file", b"old")
    os.mkdir(f"{folder}/folder")
    os.symlink("file", f"{folder}/link")
    with disk.calls() as calls:
        calls.answer(f"make 12 {folder}/new/deep/name")
        for place, text in ((8, "ijkl"), (0, "abcd"), (4, "efgh")):
            calls.answer(f"place {place} {text}")
        disk.check("nothing is at the destination before the end", not os.path.exists(f"{folder}/new/deep/name"))
        calls.says("ranges in any order, in folders that were missing", "finish", "Ok(())")
        disk.check("the file is the ranges in order of place", content(f"{folder}/new/deep/name") == b"abcdefghijkl")
        calls.says("its time is set", f"stamp {STAMP} {folder}/new/deep/name", "Ok(())")
        disk.check("to the microsecond", os.stat(f"{folder}/new/deep/name").st_mtime_ns == STAMP * 1000)
        calls.says("100,000 bytes in pieces of 4,096", f"fill 100000 4096 {folder}/file", "Ok(())")
        disk.check("the destination is replaced", content(f"{folder}/file") == bytes(100_000))
        calls.says("a destination that is a link", f"fill 3 3 {folder}/link", "Ok(())")
        disk.check("the link is replaced, what it led to is as it was", content(f"{folder}/file") == bytes(100_000))
        calls.says("an empty file", f"fill 0 8 {folder}/empty", "Ok(())")
        disk.check("it is there", content(f"{folder}/empty") == b"")
        for name in ("m" * 255, "é" * 127):
            calls.says(f"a name of {len(name.encode())} bytes", f"fill 64 16 {folder}/{name}", "Ok(())")
        calls.says("a name of 256 bytes", f"make 1 {folder}/" + "m" * 256, "Failed")
    disk.is_clean("beside the destinations", folder)


def obstacles(disk, folder):
    """A folder at the destination, or a file above it, is named and stays."""
    put(f"{folder}/file", b"old")
    put(f"{folder}/folder/x", b"old")
    place = len(folder.encode())
    with disk.calls() as calls:
        for what, dest, length in (
            ("a folder as destination", "folder", 7),
            ("a folder, written with a /", "folder/", 8),
            ("a file on the way", "file/below", 5),
            ("a file further up", "file/below/it", 5),
        ):
            calls.says(what, f"make 1 {folder}/{dest}", f"Blocked {{ length: {place + length} }}")
        calls.answer(f"make 3 {folder}/k")
        calls.answer("place 0 abc")
        os.mkdir(f"{folder}/k")
        calls.says("a folder that came to be at the destination", "finish", f"Blocked {{ length: {place + 2} }}")
        calls.says("the temporary file is dropped", "drop", "Ok(())")
        calls.says("the last file below a folder is removed", f"remove {folder}/folder/x", "Ok(())")
        calls.says("the folder stays", f"kind {folder}/folder", "Ok(Folder)")
        calls.says("a folder is not removed", f"remove {folder}/folder", "Err(Failed)")
        calls.says("what is absent is not removed", f"remove {folder}/none", "Err(Failed)")
    disk.check("the file on the way is as it was", content(f"{folder}/file") == b"old")
    disk.is_clean("beside what is in the way", folder)


def system_calls(disk, folder):
    """What is asked of the system, as strace sees it, which interrupts every other open, read and write."""
    if subprocess.run(["strace", "-qq", "-o", "/dev/null", "true"], capture_output=True).returncode != 0:
        print("skipped: interrupted calls, since strace does not run here")
        return
    put(f"{folder}/source", b"abcdef")
    put(f"{folder}/dest", b"old")
    paths = [f"{folder}/{name}" for name in ("source", "dest", "dest.00000000.s3part")]
    trace = ["-o", f"{folder}/trace", "-e", "inject=openat,read,write:error=EINTR:when=1+2"]
    with disk.calls("strace", "-qq", *trace, *(word for path in paths for word in ("-P", path))) as calls:
        calls.answer(f"kind {paths[0]}")
        calls.says("an interrupted read", f"read 0 {paths[0]}", '"abc"')
        calls.says("the next piece", f"read 3 {paths[0]}", '"def"')
        calls.answer(f"make 6 {paths[1]}")
        calls.says("an interrupted write", "place 3 DEF", "Ok(())")
        calls.says("another one", "place 0 ABC", "Ok(())")
        calls.says("what was put together", "finish", "Ok(())")
        calls.says("its time", f"stamp 5 {paths[1]}", "Ok(())")
    disk.check("it is whole", content(paths[1]) == b"ABCDEF")
    lines = content(f"{folder}/trace").decode().splitlines()
    injected = {line.partition("(")[0] for line in lines if line.endswith("(INJECTED)")}
    disk.check("opens, reads and writes were interrupted", injected == {"openat", "read", "write"}, ", ".join(injected))
    opened = [line for line in lines if line.startswith("openat") and not line.endswith("(INJECTED)")]
    source, dest, temp = ([line for line in opened if f'"{path}"' in line] for path in paths)
    disk.check("the source is opened once, for reading", len(source) == 1 and "O_RDONLY" in source[0])
    once = len(temp) == 1 and "O_WRONLY|O_CREAT|O_EXCL" in temp[0]
    disk.check("the temporary file is opened once, where nothing is", once)
    disk.check("the destination is never opened for writing", all("O_RDONLY" in line for line in dest) and dest)


def temporary_files(disk, folder):
    """A temporary file never opens what is there, and only the file that was made is written."""
    put(f"{folder}/precious", b"precious")
    put(f"{folder}/k.00000000.s3part", b"precious")
    os.symlink("precious", f"{folder}/k.00000001.s3part")
    os.symlink("nowhere", f"{folder}/k.00000002.s3part")
    os.mkfifo(f"{folder}/k.00000003.s3part")
    with disk.calls() as calls:
        calls.says("the next number that is free", f"make 3 {folder}/k", f"{folder}/k.00000004.s3part")
        calls.answer("place 0 abc")
        calls.says("the file is put in its place", "finish", "Ok(())")
    whole = content(f"{folder}/precious") == content(f"{folder}/k.00000000.s3part") == b"precious"
    disk.check("what had the names before is as it was", whole and not os.path.exists(f"{folder}/nowhere"))
    disk.check("the file is there", content(f"{folder}/k") == b"abc")


def many_at_once(disk, folder):
    """More files are put together at once than may be open."""
    put(f"{folder}/precious", b"precious")
    most = (100, resource.getrlimit(resource.RLIMIT_NOFILE)[1])
    with disk.calls(preexec_fn=lambda: resource.setrlimit(resource.RLIMIT_NOFILE, most)) as calls:
        made = [calls.answer(f"make 8 {folder}/{number}") for number in range(300)]
        disk.check("300 at once where 100 files may be open", all(path.endswith(".s3part") for path in made))
        os.unlink(made[0])
        os.symlink("precious", made[0])
        calls.says("a link at the name of one is not written", "place 0 12345678", "Err(Failed)")
        calls.says("it is dropped", "drop", "Ok(())")
        steps = ("place 4 {:04}", "place 0 {:04}", "finish")
        answers = {calls.answer(step.format(number)) for number in range(1, 300) for step in steps}
        disk.check("the others are written and put in their places", answers == {"Ok(())"}, ", ".join(answers))
    whole = all(content(f"{folder}/{number}") == b"%04d" % number * 2 for number in range(1, 300))
    disk.check("each has its bytes", whole and content(f"{folder}/precious") == b"precious")
    disk.is_clean("of many", folder)


@contextlib.contextmanager
def small_disk(folder, options):
    """A disk in memory, or None where it cannot be mounted."""
    mount = ["mount", "-t", "tmpfs", "-o", options, "tmpfs", folder]
    if not IS_ROOT or subprocess.run(mount, capture_output=True).returncode != 0:
        print("skipped: a full disk, since no disk in memory can be mounted here; root may")
        yield False
        return
    try:
        yield True
    finally:
        subprocess.run(["umount", folder], check=True)


def full_disk(disk, folder):
    """What does not fit on the disk leaves its destination as it was, and no temporary file."""
    with small_disk(folder, "size=1m") as mounted, disk.calls() as calls:
        if mounted:
            put(f"{folder}/old", b"content")
            calls.says("a full disk", f"fill 8388608 65536 {folder}/old", 'Err("place")')
            disk.check("the destination on it is as it was", content(f"{folder}/old") == b"content")
            disk.is_clean("on it", folder)
            calls.says("what fits is written", f"fill 65536 65536 {folder}/old", "Ok(())")
    with small_disk(folder, "nr_inodes=3") as mounted, disk.calls() as calls:
        if mounted:
            put(f"{folder}/a")
            put(f"{folder}/b")
            calls.says("a disk with no room for another file", f"make 1 {folder}/a", "Failed")
            disk.is_clean("there", folder)


def closed_folders(disk, folder):
    """Folders without permission, for a user who has no rights over them."""
    how = {"user": NOBODY, "group": NOBODY, "extra_groups": []} if IS_ROOT else {}
    put(f"{folder}/closed/x/f", b"x")
    put(f"{folder}/fixed/f", b"x")
    put(f"{folder}/own/f", b"x")
    if IS_ROOT:
        for path in (f"{folder}/own", f"{folder}/own/f"):
            os.chown(path, NOBODY, NOBODY)
    os.chmod(f"{folder}/own/f", 0o444)
    os.chmod(f"{folder}/closed", 0)
    os.chmod(f"{folder}/fixed", 0o555)
    try:
        with disk.calls(**how) as calls:
            calls.says("a folder that may not be read", f"walk {folder}", "Files")
            calls.says("a folder that may be read", f"walk {folder}/fixed", "1 0 0 1")
            calls.says("a destination in a folder that is closed", f"make 1 {folder}/closed/y", "Failed")
            calls.says("one in a folder that may only be read", f"make 1 {folder}/fixed/f", "Failed")
            calls.says("a destination that may not be written, in one that may", f"fill 8 8 {folder}/own/f", "Ok(())")
            temp = os.path.basename(calls.answer(f"make 3 {folder}/own/k"))
            calls.says("a temporary file is written", "place 0 abc", "Ok(())")
            os.chmod(f"{folder}/own", 0o555)
            calls.says("its folder is closed before it is renamed", "finish", "Failed")
            calls.says("it cannot be dropped, which counts as a fault", "drop", "Err(Failed)")
        disk.check("it stays, and nothing else does", leftovers(folder) == [temp], str(leftovers(folder)))
        disk.check("the other file is as it was", content(f"{folder}/fixed/f") == b"x")
    finally:
        for name in ("closed", "fixed", "own"):
            os.chmod(f"{folder}/{name}", 0o755)


def many_names(disk, _):
    """As many files as a walk takes, in memory."""
    given = ("memory none | d*1000000", "walk d", "memory none | d*1000001", "walk d")
    answers = [line.rpartition(b" => ")[2] for line in disk.whole(*given).splitlines()]
    wanted = [b"done", b"1000000 0 0 0", b"done", b"TooMany"]
    disk.check("1,000,000 files are walked, one more is refused", answers == wanted)


GROUPS = (
    many_files,
    shapes,
    deep_folders,
    changed_files,
    destinations,
    obstacles,
    system_calls,
    temporary_files,
    many_at_once,
    full_disk,
    closed_folders,
    many_names,
)


def try_files(checks, program):
    """Tries the program in folders of their own, which are removed again."""
    with tempfile.TemporaryDirectory() as top:
        os.chmod(top, 0o755)
        disk = Disk(checks, shutil.copy(program, top), top)
        for group in GROUPS:
            folder = f"{top}/{group.__name__}"
            os.mkdir(folder)
            group(disk, folder)
