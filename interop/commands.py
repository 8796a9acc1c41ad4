"""Command lines, settings files and presigned URLs, tried with the built program as a person or a script would."""

import os
import re
import shutil
import subprocess
import time
import urllib.error
import urllib.parse
import urllib.request

from programs import line_of

BUCKET = "backups"
ENDPOINT = ("--endpoint-url", "http://localhost:9")
COPY = ("cp", "a.txt", "s3://b/a.txt")

# Each fault of a command line once: the words, and what is said of them.
FAULTS = [
    ("an unknown command", ("copy", *COPY[1:], *ENDPOINT), "unknown command copy"),
    ("an unknown option", (*COPY, "--recursiv", *ENDPOINT), "unknown option --recursiv"),
    ("another command's option", (*COPY, "--expires-in", "60", *ENDPOINT), "unknown option --expires-in"),
    ("a short option", (*COPY, "-q", *ENDPOINT), "unknown option -q"),
    ("a missing value", (*COPY, *ENDPOINT, "--profile"), "no value for --profile"),
    ("an empty value", (*COPY, "--profile", "", *ENDPOINT), "bad value "),
    ("a flag with a value", (*COPY, "--quiet=yes", *ENDPOINT), "bad value --quiet=yes"),
    ("a bad region", (*COPY, "--region=eu west", *ENDPOINT), "bad value --region=eu west"),
    ("a bad bucket", ("cp", "a.txt", "s3://b b/a.txt", *ENDPOINT), "bad value s3://b b/a.txt"),
    ("an option twice", (*COPY, "--region", "x", "--region", "y", *ENDPOINT), "--region is given twice"),
    ("a bad endpoint", (*COPY, "--endpoint-url", "localhost:9"), "bad endpoint localhost:9"),
    ("one path", ("cp", "a.txt", *ENDPOINT), "1 paths given, 2 wanted"),
    ("three paths", (*COPY, "s3://b/c", *ENDPOINT), "3 paths given, 2 wanted"),
    ("two local paths", ("cp", "a.txt", "b.txt", *ENDPOINT), "the paths do not fit the command"),
    ("a URL of a folder", ("presign", "s3://b/", *ENDPOINT), "the paths do not fit the command"),
    ("a URL for too long", ("presign", "s3://b/k", "--expires-in", "604801", *ENDPOINT), "bad value 604801"),
    ("no endpoint", COPY, "no endpoint"),
    ("not built yet", ("sync", "d", "s3://b/", *ENDPOINT), "not built yet"),
    ("an object as the source", ("cp", "s3://b/k", "k", *ENDPOINT), "not built yet"),
]


def faults(checks, runs, keys):
    for name, words, said in FAULTS:
        shown = runs.run(words, keys)
        checks.check(f"{name}: status and line", shown == (252, "", f"s3: {said}\n"), line_of(shown))
    status, out, err = runs.run((), keys)
    is_told = status == 252 and out == "" and err.startswith("s3: no command\n") and "usage: s3" in err
    checks.check("no words: the fault, and the help behind it", is_told, err.partition("\n")[0])
    for words in (("--help",), ("-h",), ("help",), ("cp", "--help"), ("presign", "help")):
        status, out, err = runs.run(words, {})
        checks.check(f"{' '.join(words)}: the page", (status, err) == (0, "") and out.startswith("usage: s3"), str(status))


class Copies:
    """Copies of a file to the bucket, with options."""

    def __init__(self, checks, runs, service, client):
        self.checks, self.runs, self.service, self.client = checks, runs, service, client

    def shows(self, name, words, due, env=None):
        words = ("cp", "--endpoint-url", self.service.url, *words)
        shown = self.runs.run(words, self.service.keys if env is None else env)
        self.checks.check(f"{name}: status and lines", shown == due, line_of(shown))

    def stores(self, name, key, content, kind=None):
        stored = self.client.get_object(Bucket=BUCKET, Key=key)
        self.checks.check(f"{name}: bytes", stored["Body"].read() == content, key)
        if kind is not None:
            self.checks.check(f"{name}: content type", stored["ContentType"] == kind, stored["ContentType"])


def options(copies):
    runs = copies.runs
    runs.write("notes.txt", b"notes\n")
    to = f"s3://{BUCKET}/options/"
    done = (0, f"upload: notes.txt to {to}notes.txt\n", "")
    copies.shows("a prefix as destination", ("notes.txt", to), done)
    copies.stores("a prefix as destination", "options/notes.txt", b"notes\n", "text/plain")
    runs.write("notes.txt", b"other\n")
    copies.shows("options before the paths", ("--content-type=text/x-notes", "--no-progress", "notes.txt", to), done)
    copies.stores("options before the paths", "options/notes.txt", b"other\n", "text/x-notes")
    copies.shows("--quiet", ("notes.txt", to, "--quiet"), (0, "", ""))
    copies.shows("--only-show-errors", ("notes.txt", to, "--only-show-errors"), (0, "", ""))
    copies.shows("a filter that leaves the file out", ("notes.txt", to + "no", "--exclude", "*.txt"), (0, "", ""))
    copies.shows("the last filter decides", ("notes.txt", to, "--exclude", "*", "--include", "n*"), done)
    long_key = f"s3://{BUCKET}/" + "k" * 1_020 + "/"
    skipped = (2, "", "warning: Skipping notes.txt: key too long\n")
    copies.shows("a key that is too long", ("notes.txt", long_key), skipped)
    copies.shows("a key that is too long, --quiet", ("notes.txt", long_key, "--quiet"), (2, "", ""))
    os.mkfifo(os.path.join(runs.folder, "fifo"))
    copies.shows("a fifo", ("fifo", to), (2, "", "warning: Skipping fifo: not a file\n"))
    copies.shows("a path behind --", ("--", "notes.txt", to), done)


CONFIG = """[default]
region = us-east-1
s3 =
  multipart_threshold = 1KB

[profile backup]
region = us-east-1
"""

CREDENTIALS = """[default]
aws_access_key_id = {AWS_ACCESS_KEY_ID}
aws_secret_access_key = {AWS_SECRET_ACCESS_KEY}

[backup]
aws_access_key_id = {AWS_ACCESS_KEY_ID}
aws_secret_access_key = {AWS_SECRET_ACCESS_KEY}
"""


def refused(said):
    """What is shown where the settings are refused."""
    return 253, "", f"s3: {said}\n"


def settings(copies):
    runs, keys = copies.runs, copies.service.keys
    os.makedirs(os.path.join(runs.folder, "home", ".aws"))
    runs.write("home/.aws/config", CONFIG.encode())
    runs.write("home/.aws/credentials", CREDENTIALS.format(**keys).encode())
    runs.write("bad", b"[default]\nregion us-east-1\n")
    runs.write("kib.bin", bytes(1_024))
    home = {"HOME": os.path.join(runs.folder, "home")}
    to = f"s3://{BUCKET}/settings.txt"
    done = (0, f"upload: notes.txt to {to}\n", "")
    region = keys["AWS_REGION"]
    no_region = {**keys, "AWS_REGION": ""}
    unread = refused("a settings file could not be read")
    bad = refused("line 2 of the config file is not understood")
    rows = [
        ("both files below HOME", (), home, done),
        ("--profile", ("--profile", "backup"), home, done),
        ("AWS_PROFILE", (), {**home, "AWS_PROFILE": "backup"}, done),
        ("a profile that is not there", ("--profile=none",), home, refused("profile none not found")),
        ("files at other paths", (), {"AWS_CONFIG_FILE": "home/.aws/config",
                                      "AWS_SHARED_CREDENTIALS_FILE": "home/.aws/credentials"}, done),
        ("--region", ("--region", region), no_region, done),
        ("AWS_DEFAULT_REGION", (), {**no_region, "AWS_DEFAULT_REGION": region}, done),
        ("a variable that cannot be used", (), {**keys, "AWS_REGION": "eu west", "AWS_DEFAULT_REGION": region}, done),
        ("a folder as config file", (), {**home, "AWS_CONFIG_FILE": "home"}, unread),
        ("a line that is no setting", (), {**home, "AWS_CONFIG_FILE": "bad"}, bad),
        ("no files and no variables", (), {}, refused("no credentials found")),
    ]
    for name, words, env, due in rows:
        copies.shows(name, ("notes.txt", to, *words), due, env)
    yet = (252, "", "s3: not built yet\n")
    copies.shows("a file of the threshold's size", ("kib.bin", to), yet, home)


def fetched(url):
    """The status and the body of a GET of this URL, by another client."""
    try:
        with urllib.request.urlopen(url, timeout=30) as answer:
            return answer.status, answer.read()
    except urllib.error.HTTPError as error:
        return error.code, error.read()


def fetched_by_curl(url):
    """The same, by curl, given the URL as a person would paste it."""
    words = ["curl", "--silent", "--show-error", "--max-time", "30", "--write-out", "\n%{http_code}", url]
    body, _, status = subprocess.run(words, capture_output=True).stdout.rpartition(b"\n")
    return int(status), body


def changed(url):
    """The URL with another last digit of its signature."""
    return url[:-1] + ("0" if url[-1] != "0" else "1")


def presigned(checks, runs, service, client):
    content = "caf\u00e9 \u2713\n".encode()
    key = "presigned/a page+\u00e9 & more.txt"
    client.put_object(Bucket=BUCKET, Key=key, Body=content)

    def url(*words):
        shown = runs.run(("presign", f"s3://{BUCKET}/{key}", *words, "--endpoint-url", service.url), service.keys)
        checks.check(f"presign {' '.join(words)}: status and line", shown[0] == 0 and shown[2] == "" and
                     shown[1].startswith(service.url + f"/{BUCKET}/") and shown[1].count("\n") == 1, line_of(shown))
        return shown[1].rstrip("\n")

    hour = url()
    names = [name for name, _ in urllib.parse.parse_qsl(urllib.parse.urlsplit(hour).query)]
    checks.check("presign: the query in order", names == sorted(names[:-1]) + ["X-Amz-Signature"], " ".join(names))
    checks.check("presign: an hour", "X-Amz-Expires=3600&" in hour)
    clients = {"urllib": fetched}
    if shutil.which("curl"):
        clients["curl"] = fetched_by_curl
    else:
        print("skipped: curl is not on this machine")
    for name, fetch in clients.items():
        checks.check(f"presign: {name} fetches the URL", fetch(hour) == (200, content))
    if service.name == "moto":
        return  # which looks at no signature
    short = url("--expires-in", "1")
    time.sleep(3)
    for name, fetch in clients.items():
        checks.check(f"presign: {name} is refused with another signature", fetch(changed(hour))[0] == 403)
        checks.check(f"presign: {name} is refused with an expired URL", fetch(short)[0] == 403)


def words_of_main(checks, runs):
    """What the program answers before its call: its version, and a word that is no text."""
    status, out, err = runs.run(("--version",), {})
    checks.check("--version: the line", status == 0 and err == "" and re.fullmatch(r"s3 \d+\.\d+\.\d+\n", out) is not None, out)
    shown = runs.run(("cp", b"a\xff \\.txt", "s3://b/a.txt", *ENDPOINT), {})
    said = "s3: this word is not UTF-8: a\\xff\\x20\\x5c.txt\n"
    checks.check("a word that is not UTF-8: status and line", shown == (252, "", said), line_of(shown))


# Each word of this length is copied, so that some limits of memory let the program start and not read its words.
LONG_WORD = "a" * 120_000


def without_memory(checks, runs, keys):
    """The more memory the program may take, the further it gets: before its call it ends silently, behind it with a line."""
    limited = type(runs)("prlimit", runs.folder)
    endings = []
    for kilobytes in range(2_000, 8_000, 50):
        shown = limited.run((f"--as={kilobytes * 1024}", runs.program, "ls", *[LONG_WORD] * 8), keys)
        was_started = shown[0] != 127  # the system could load the program
        if was_started and shown not in endings:
            endings.append(shown)
    due = [(70, "", ""), (70, "", "s3: out of memory\n"), (252, "", "s3: 8 paths given, 1 wanted\n")]
    checks.check("no memory: statuses and lines", endings == due, "; ".join(line_of(shown) for shown in endings))


# Standard descriptors that are closed, what is copied, and the status: an output that is closed cannot be written.
CLOSED = [
    ("standard input", "<&-", "notes.txt", 0),
    ("standard output", ">&-", "notes.txt", 74),
    ("standard error", "2>&-", "notes.txt", 0),
    ("standard error, and a line for it", "2>&-", "gone.txt", 74),
    ("all three", "<&- >&- 2>&-", "notes.txt", 74),
]


def closed_descriptors(checks, runs, service, client):
    """No connection and no file gets the number of a descriptor that is closed: what is stored is the file's bytes."""
    shells = type(runs)("sh", runs.folder)
    with open(os.path.join(runs.folder, "notes.txt"), "rb") as file:
        content = file.read()
    for number, (name, closed, path, due) in enumerate(CLOSED):
        key = f"closed/{number}"
        words = ("cp", path, f"s3://{BUCKET}/{key}", "--endpoint-url", service.url)
        shown = shells.run(("-c", f'exec "$0" "$@" {closed}', runs.program, *words), service.keys)
        checks.check(f"closed {name}: status", shown[0] == due, line_of(shown))
        if path == "notes.txt":
            stored = client.get_object(Bucket=BUCKET, Key=key)["Body"].read()
            checks.check(f"closed {name}: bytes", stored == content, key)


def try_commands(checks, runs, service, client):
    """On a service whose bucket is there."""
    faults(checks, runs, service.keys)
    words_of_main(checks, runs)
    without_memory(checks, runs, service.keys)
    copies = Copies(checks, runs, service, client)
    options(copies)
    closed_descriptors(checks, runs, service, client)
    settings(copies)
    presigned(checks, runs, service, client)
