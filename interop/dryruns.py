"""Dry runs of local files beside those of the AWS CLI: the same tasks are shown, whatever names a tree has."""

import importlib.util
import os
import re
import subprocess
import sys

from service import KEYS

# Nothing is asked: nobody listens here.
URL = "http://127.0.0.1:9"

# The files of the tree; beside them stands a folder without files.
FILES = [
    "a.txt",
    "a page \u00fc.html",
    "a+b%20c%2F&'\"<>;=?#[]~!*()@:,$^`{|}.txt",
    "\u65e5\u672c/\U0001f600/e\u0301.txt",
    "d/e/f.log",
    "d/e.log",
    "d-/a.log",
    ".hidden/.file",
    "deep/" * 20 + "end",
    "ends.",
    "back\\slash",
    "tab\tname",
]

ROWS = [
    ("cp", "tree", "s3://backups/p", "--recursive"),
    ("cp", "tree/", "s3://backups/p/", "--recursive"),
    ("cp", "tree", "s3://backups", "--recursive"),
    ("mv", "tree", "s3://backups/p", "--recursive"),
    ("cp", "tree", "s3://backups/p", "--recursive", "--exclude", "*.log"),
    ("cp", "tree", "s3://backups/p", "--recursive", "--exclude", "*", "--include", "d/*"),
    ("cp", "tree", "s3://backups/p", "--recursive", "--include", "d/*", "--exclude", "d/*"),
    ("cp", "tree", "s3://backups/p", "--recursive", "--exclude", "*", "--include", "?.txt", "--include", "[!a]*"),
    ("cp", "tree/a.txt", "s3://backups"),
    ("cp", "tree/a.txt", "s3://backups/k"),
    ("cp", "tree/a.txt", "s3://backups/k/"),
    ("cp", "tree/a page \u00fc.html", "s3://backups/\u00fc +%"),
    ("cp", "tree/a.txt", "s3://backups/", "--exclude", "*.txt"),
    ("mv", "tree/a.txt", "s3://backups/"),
    ("cp", "empty", "s3://backups/", "--recursive"),
    ("rm", "s3://backups/a page \u00fc.html"),
    ("rm", "s3://backups/a/b/"),
]

LINE = re.compile(r"\(dryrun\) (upload|move|delete): (.*?)(?: to (s3://.*))?", re.DOTALL)


def make_tree(folder):
    for name in FILES:
        path = os.path.join(folder, "tree", name)
        os.makedirs(os.path.dirname(path), exist_ok=True)
        with open(path, "wb") as file:
            file.write(name.encode())
    os.makedirs(os.path.join(folder, "tree", "no files"), exist_ok=True)
    os.makedirs(os.path.join(folder, "empty"), exist_ok=True)


def tasks(text):
    """What the lines show, in order of their text: the verb, the source without `./`, and the destination."""
    found = []
    for line in text.split("\n")[:-1]:
        shown = LINE.fullmatch(line)
        if shown is None:
            return line
        verb, source, dest = shown.groups()
        found.append((verb, source if source.startswith("s3://") else os.path.normpath(source), dest))
    return sorted(found, key=repr)


def of_aws(folder, words):
    ran = subprocess.run(
        [sys.executable, "-m", "awscli", "s3", *words, "--dryrun", "--endpoint-url", URL],
        cwd=folder,
        env={"PATH": os.environ["PATH"], "HOME": folder, "PYTHONUTF8": "1", **KEYS},
        stdin=subprocess.DEVNULL,
        capture_output=True,
        timeout=120,
        check=False,
    )
    return ran.returncode, ran.stdout.decode(), ran.stderr.decode()


def in_order(out):
    """Whether the tasks of a tree stand in byte order of their sources."""
    sources = [line.partition(": ")[2].rpartition(" to ")[0].encode() for line in out.split("\n")[:-1]]
    return sources == sorted(sources)


def try_dry_runs(checks, runs):
    if importlib.util.find_spec("awscli") is None:
        print("skipped: awscli is not on this machine, so dry runs have nothing beside them")
        return
    make_tree(runs.folder)
    for words in ROWS:
        name = "dry run: " + " ".join(words)
        status, out, err = runs.run([*words, "--dryrun", "--endpoint-url", URL], KEYS)
        due = of_aws(runs.folder, words)
        mine, other = tasks(out), tasks(due[1])
        checks.check(name, mine == other and err == "" and status == due[0],
                     f"{status}: {len(mine)} tasks" if mine == other else f"{status}: {mine!r:.300} for {other!r:.300} {err}")
        checks.check(name + ": in byte order", in_order(out))
