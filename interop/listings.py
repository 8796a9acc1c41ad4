"""`ls` of whole listings, compared line by line with what boto3 is told, and on servers that cut a listing short."""

import concurrent.futures
import datetime

import hostile
import service
from hostile import head
from lines import SKEWED
from programs import has_clock, line_of

LISTED, BARE = "listed", "bare"
KEYS = 2_500

SIGNS = [
    " ", "  ", "+", "%", "%20", "%2F", "&", "&amp;", "<", ">", '"', "'", "#", "?", "=", ";", ":", "@", ",", "$", "!",
    "*", "(", ")", "~", "^", "`", "|", "\\", "{", "}", "[", "]", "]]>", "-", "_", ".", "..", "\u00e9", "e\u0301",
    "\u65e5\u672c", "\U0001f600", "\u00a0", "\u2028", "\t", "\x01", "\x1f", "\x7f", "\u0085",
]
FOLDERS = ["", "dir/", "dir/sub dir/", "a+b/", "100%/", "<&>/", "caf\u00e9/", "\U0001f600/\u00e9/", "tab\there/"]


def nasty_keys():
    """Distinct keys: each sign at the front, in the middle and at the end, in each folder, and numbers for the rest."""
    keys = {folder + form.format(sign) for folder in FOLDERS for sign in SIGNS for form in ("{}x", "a{}b", "y{}")}
    number = 0
    while len(keys) < KEYS:
        keys.add(f"{FOLDERS[number % len(FOLDERS)]}{number:05}")
        number += 1
    return sorted(keys)


def store(client):
    """Stores an object under each key that the service takes, and answers how many it does not take."""
    from botocore.exceptions import BotoCoreError, ClientError

    client.create_bucket(Bucket=LISTED)
    client.create_bucket(Bucket=BARE)

    def put(at_key):
        at, key = at_key
        try:
            client.put_object(Bucket=LISTED, Key=key, Body=b"x" * (at % 7))
            return 0
        except (BotoCoreError, ClientError):
            return 1

    with concurrent.futures.ThreadPoolExecutor(8) as pool:
        return sum(pool.map(put, enumerate(nasty_keys())))


def row(time, rest):
    return time.astimezone(datetime.timezone.utc).strftime("%Y-%m-%d %H:%M:%S") + " " + rest + "\n"


def due(client, prefix, recursive):
    """The rows of a listing, prefixes first, by boto3's pages."""
    folders, objects = [], []
    more = {} if recursive else {"Delimiter": "/"}
    for page in client.get_paginator("list_objects_v2").paginate(Bucket=LISTED, Prefix=prefix, **more):
        for common in page.get("CommonPrefixes", []):
            folders.append(f"{'PRE':>30} {common['Prefix'].rstrip('/').rpartition('/')[2]}/\n")
        for entry in page.get("Contents", []):
            name = entry["Key"] if recursive else entry["Key"].rpartition("/")[2]
            objects.append(row(entry["LastModified"], f"{entry['Size']:>10} {name}"))
    return folders + objects


def first_difference(shown, rows):
    for line, wanted in zip(shown.splitlines(keepends=True), "".join(rows).splitlines(keepends=True)):
        if line != wanted:
            return f"{line!r}, and due was {wanted!r}"
    return f"{len(shown)} characters, and due were {sum(map(len, rows))}"


def whole_listings(checks, runs, running, client):
    rows = [("the whole bucket", "", True), ("the top of the bucket", "", False), ("a folder", "dir/", False),
            ("a folder and what is below", "dir/", True), ("a beginning of names", "a", False),
            ("a beginning with a sign", "a+", True), ("a folder named by signs", "<&>/", False),
            ("another script", "\U0001f600/", False)]
    for name, prefix, recursive in rows:
        words = ("ls", f"s3://{LISTED}/{prefix}", *(["--recursive"] if recursive else []), "--endpoint-url", running.url)
        status, out, err = runs.run(words, running.keys)
        expected = due(client, prefix, recursive)
        same = (status, out, err) == (0, "".join(expected), "")
        text = f"{len(expected)} rows" if same else f"{status}: {err.strip()} {first_difference(out, expected)}"
        checks.check(f"ls, {name}: status and rows", same and expected, text)


def buckets(checks, runs, running, client):
    shown = runs.run(("ls", "--endpoint-url", running.url), running.keys)
    rows = [row(bucket["CreationDate"], bucket["Name"]) for bucket in client.list_buckets()["Buckets"]]
    checks.check("ls, the buckets: status and rows", shown == (0, "".join(rows), "") and len(rows) >= 2, line_of(shown))


def refused_by(code, message):
    text = f"An error occurred ({code}) when calling the ListObjectsV2 operation: {message}"
    return 254, "", f"fatal error: {text}\n"


MISSING = {"moto": "The specified bucket does not exist", "swift": "The specified bucket does not exist.", "ceph": ""}


def nothing_listed(checks, runs, running, client):
    """Where there is nothing to list, or no right to it."""
    denied = {"swift": "Access Denied.", "ceph": ""}
    rows = [
        ("an absent bucket", "s3://none", running.keys, refused_by("NoSuchBucket", MISSING[running.name])),
        ("an empty bucket", f"s3://{BARE}", running.keys, (0, "", "")),
        ("nothing below a prefix", f"s3://{LISTED}/nobody/", running.keys, (1, "", "")),
        ("nothing below a prefix of an empty bucket", f"s3://{BARE}/x", running.keys, (1, "", "")),
    ]
    if running.name in denied:
        rows.append(("another user", f"s3://{LISTED}", running.other_keys,
                     refused_by("AccessDenied", denied[running.name])))
    for name, uri, keys, expected in rows:
        for more in ((), ("--recursive",)):
            shown = runs.run(("ls", uri, *more, "--endpoint-url", running.url), keys)
            checks.check(f"{' '.join(('ls', *more))}, {name}: status and lines", shown == expected, line_of(shown))


def other_clocks(checks, runs, running):
    """The program's clock differs from the service's; moto looks at none."""
    said = {"swift": SKEWED, "ceph": ""}
    if running.name not in said or not has_clock():
        return
    for name, clock in (("an hour ahead", "+1h"), ("an hour behind", "-1h")):
        words = ("ls", f"s3://{LISTED}", "--endpoint-url", running.url)
        shown = runs.run(words, running.keys, clock=clock)
        expected = refused_by("RequestTimeTooSkewed", said[running.name])
        checks.check(f"ls, a clock {name}: status and lines", shown == expected, line_of(shown))


def try_listings(checks, runs, running, client):
    refused = store(client)
    print(f"{refused} of {KEYS} keys are not taken by the service")
    whole_listings(checks, runs, running, client)
    buckets(checks, runs, running, client)
    nothing_listed(checks, runs, running, client)
    other_clocks(checks, runs, running)


# ---- servers that misbehave

TIME = "2026-01-02T03:04:05.000Z"


def page(keys, token=None):
    """A page of these keys, and of the token of the next."""
    more = f"<NextContinuationToken>{token}</NextContinuationToken>" if token else ""
    contents = "".join(f"<Contents><Key>{key}</Key><LastModified>{TIME}</LastModified><ETag>&quot;e&quot;</ETag>"
                       f"<Size>5</Size></Contents>" for key in keys)
    text = (f"<?xml version='1.0'?>\n<ListBucketResult xmlns='http://s3.amazonaws.com/doc/2006-03-01/'><EncodingType>url</EncodingType><IsTruncated>"
            f"{str(bool(token)).lower()}</IsTruncated>{more}{contents}</ListBucketResult>").encode()
    return text


def answered(*pages, close_after=None, fields=()):
    """Answers each request with the next of these pages; closes the connection behind the page of that number."""
    left = list(enumerate(pages))

    def serve(peer):
        while left:
            hostile.take_head(peer)
            number, text = left.pop(0)
            peer.sendall(head("200 OK", f"content-length: {len(text)}", *fields) + text)
            if number == close_after:
                return
        hostile.hold(peer)

    return serve


def rows_of(names):
    return "".join(f"2026-01-02 03:04:05          5 {name}\n" for name in names)


def fatal(text, status=255):
    return status, "", f"fatal error: {text}\n"


LOST = "The answer to the ListObjectsV2 operation was lost "
TWO = page(["a"], "T"), page(["b"])
WHOLE = 0, rows_of(["a", "b"]), ""

# A server, how a listing of it ends, and how many connections that opens: a request whose answer is lost is made three
# times.
SERVERS = [
    ("two pages over one connection", answered(*TWO), WHOLE, 1),
    ("closes a kept connection between two requests", answered(*TWO, close_after=0), WHOLE, 2),
    ("connection: close behind each page", answered(*TWO, close_after=0, fields=("connection: close",)), WHOLE, 2),
    ("more pages, and no token", answered(page(["a"]).replace(b"false", b"true")), fatal("The listing has no token"), 1),
    ("the second page begins before the end of the first", answered(page(["b"], "T"), page(["a"])),
     fatal("The listing is out of order: a after b"), 1),
    ("the same page twice", answered(page(["a"], "T"), page(["a"])), fatal("The listing is out of order: a after a"), 1),
    ("a key outside the prefix", answered(page(["z"])), fatal("The listing has z outside its prefix"), 1),
    ("a head of 65,537 bytes", hostile.says(hostile.padded(65_539)[:65_537], take=hostile.take_head),
     fatal(LOST + "(head too long)"), 3),
    ("a refusal", hostile.says(hostile.DENIED, take=hostile.take_head),
     fatal("An error occurred (AccessDenied) when calling the ListObjectsV2 operation: Access Denied.", 254), 1),
    ("no document", answered(b"", b"", b""), fatal(LOST + "(unreadable answer)"), 1),
]


def try_servers(checks, runs):
    for name, serve, expected, opened in SERVERS:
        uri = "s3://backups/a" if "outside" in name else "s3://backups"
        with hostile.Server(serve) as server:
            words = ("ls", uri, "--recursive", "--endpoint-url", f"http://127.0.0.1:{server.port}")
            shown = runs.run(words, service.KEYS)
        checks.check(f"ls, {name}: status and lines", shown == expected, line_of(shown))
        checks.check(f"ls, {name}: connections", server.opened == opened, str(server.opened))
