"""The cases that are run on every service: what is stored, and what is refused and changes nothing."""

import os
from typing import NamedTuple

import commands
import fronts
import listings
from lines import SKEWED, STORED, WRONG_SIGNATURE, lost, refused
from programs import CLOCK, LARGE, has_clock, line_of
from service import free_ports

BUCKET = "backups"


class Upload(NamedTuple):
    """A file, its content, the key that it goes to, and the content type that its name says."""

    name: str
    file: str
    content: bytes
    key: str
    kind: str | None = None


UPLOADS = [
    Upload("a small file", "a.txt", b"hello\n", "a.txt", "text/plain"),
    Upload("an empty file", "empty.json", b"", "empty.json", "application/json"),
    Upload("8,388,607 bytes", "large.bin", LARGE, "large.bin"),
    Upload("other bytes under a key that is there", "b.csv", b"a,b\n", "a.txt", "text/csv"),
    Upload("spaces and an accent", "a page \u00e9.html", "<p>\u00e9</p>\n".encode(), "a page \u00e9.html", "text/html"),
    Upload("signs that are escaped", "a.txt", b"hello\n", "a+b%20c%&'\"<>;=?#[]~!*()@:,$\\^`{|}.txt", "text/plain"),
    Upload("other scripts", "a.txt", b"hello\n", "\u65e5\u672c/\U0001f600/e\u0301.txt", "text/plain"),
    Upload("a key of 1,024 bytes", "a.txt", b"hello\n", "k" * 1_024, "text/plain"),
]


class Answer(NamedTuple):
    """The status of an answer, with the code and message of the document behind it."""

    status: int
    code: str = ""
    message: str = ""

    def outcome(self):
        return STORED if self.status == 200 else refused(self.status, self.code, self.message)


TAKEN = Answer(200)
WRONG_REGION = "The authorization header is malformed; the region 'eu-west-1' is wrong; expecting 'us-east-1'"

# Both allow for 15 minutes.
LATE_OR_EARLY = {
    "moto": TAKEN,
    "swift": Answer(403, "RequestTimeTooSkewed", SKEWED),
    "ceph": Answer(403, "RequestTimeTooSkewed"),
}


class Refusal(NamedTuple):
    """What each service answers where the bucket is another one, or the settings, or the user, or the program's clock."""

    name: str
    answers: dict[str, Answer]
    settings: dict[str, str] = {}
    bucket: str = BUCKET
    is_other: bool = False
    clock: str = ""


# moto looks at no keys, no signature and no clock. Ceph's gateway says no message, and does not look at the region.
REFUSALS = [
    Refusal(
        "an absent bucket",
        {
            "moto": Answer(404, "NoSuchBucket", "The specified bucket does not exist"),
            "swift": Answer(404, "NoSuchBucket", "The specified bucket does not exist."),
            "ceph": Answer(404, "NoSuchBucket"),
        },
        bucket="none",
    ),
    Refusal(
        "a wrong secret",
        {
            "moto": TAKEN,
            "swift": Answer(403, "SignatureDoesNotMatch", WRONG_SIGNATURE),
            "ceph": Answer(403, "SignatureDoesNotMatch"),
        },
        {"AWS_SECRET_ACCESS_KEY": "wrong"},
    ),
    Refusal(
        "an unknown key",
        {
            "moto": TAKEN,
            "swift": Answer(403, "SignatureDoesNotMatch", WRONG_SIGNATURE),
            "ceph": Answer(403, "InvalidAccessKeyId"),
        },
        {"AWS_ACCESS_KEY_ID": "AKIANOBODY"},
    ),
    Refusal(
        "another user",
        {"moto": TAKEN, "swift": Answer(403, "AccessDenied", "Access Denied."), "ceph": Answer(403, "AccessDenied")},
        is_other=True,
    ),
    Refusal(
        "another region",
        {"moto": TAKEN, "swift": Answer(400, "AuthorizationHeaderMalformed", WRONG_REGION), "ceph": TAKEN},
        {"AWS_REGION": "eu-west-1"},
    ),
    Refusal("a clock an hour ahead", LATE_OR_EARLY, clock="+1h"),
    Refusal("a clock an hour behind", LATE_OR_EARLY, clock="-1h"),
]


def state(client):
    """All objects, with their entity tags and times."""
    return {
        (bucket["Name"], entry["Key"]): (entry["ETag"], entry["LastModified"])
        for bucket in client.list_buckets()["Buckets"]
        for page in client.get_paginator("list_objects_v2").paginate(Bucket=bucket["Name"])
        for entry in page.get("Contents", [])
    }


def uploads(checks, runs, service, client):
    for upload in UPLOADS:
        runs.write(upload.file, upload.content)
        uri = f"s3://{BUCKET}/{upload.key}"
        shown = runs.copy(upload.file, uri, service.url, service.keys)
        checks.check(f"{upload.name}: status and line", shown == STORED.shown(upload.file, uri), line_of(shown))
        stored = client.get_object(Bucket=BUCKET, Key=upload.key)
        checks.check(f"{upload.name}: bytes", stored["Body"].read() == upload.content, f"{len(upload.content)} bytes")
        if upload.kind is not None:
            checks.check(f"{upload.name}: content type", stored["ContentType"] == upload.kind, stored["ContentType"])


def refusals(checks, runs, service, client):
    for row in REFUSALS:
        if row.clock and not has_clock():
            print(f"skipped: {row.name}; {CLOCK} is not on this machine, which sets the clock that a program sees")
            continue
        answer = row.answers[service.name]
        keys = {**(service.other_keys if row.is_other else service.keys), **row.settings}
        for file in ("a.txt", "large.bin"):
            uri = f"s3://{row.bucket}/{file}"
            before = state(client)
            shown = runs.copy(file, uri, service.url, keys, clock=row.clock)
            due = answer.outcome().shown(file, uri)
            checks.check(f"{row.name}, {file}: status and line", shown == due, line_of(shown))
            if answer != TAKEN:
                checks.check(f"{row.name}, {file}: nothing changed", state(client) == before)


def unsent(checks, runs, service, client):
    """What ends before anything is sent to the service."""
    os.mkdir(os.path.join(runs.folder, "folder"))
    [port] = free_ports(1)
    closed = f"http://127.0.0.1:{port}"
    uri = f"s3://{BUCKET}/a.txt"
    no_region = {name: value for name, value in service.keys.items() if name != "AWS_REGION"}
    long_uri = f"s3://{BUCKET}/" + "k" * 1_025
    absent = (1, "", "fatal error: The path absent does not exist\n")
    rows = [
        ("a closed port", "a.txt", uri, closed, service.keys, lost("connection failed").shown("a.txt", uri)),
        ("no credentials", "a.txt", uri, service.url, {}, (253, "", "s3: no credentials found\n")),
        ("no region", "a.txt", uri, service.url, no_region, (253, "", "s3: no region found\n")),
        ("an https endpoint", "a.txt", uri, "https://127.0.0.1", service.keys, (252, "", "s3: bad endpoint https://127.0.0.1\n")),
        ("a folder", "folder", uri, service.url, service.keys, (1, "", "fatal error: The path folder is a folder\n")),
        ("an absent file", "absent", uri, service.url, service.keys, absent),
        ("a key of 1,025 bytes", "a.txt", long_uri, service.url, service.keys, (252, "", f"s3: bad value {long_uri}\n")),
    ]
    before = state(client)
    for name, file, to, url, env, expected in rows:
        shown = runs.copy(file, to, url, env)
        checks.check(f"{name}: status and line", shown == expected, line_of(shown))
    checks.check("nothing changed", state(client) == before)


def full_output(checks, runs, service):
    with open("/dev/full", "wb") as full:
        status, _, err = runs.copy("a.txt", f"s3://{BUCKET}/full.txt", service.url, service.keys, stdout=full)
    checks.check("a full output: status", (status, err) == (74, ""), str(status))


def try_service(checks, runs, service):
    client = service.client()
    client.create_bucket(Bucket=BUCKET)
    uploads(checks, runs, service, client)
    refusals(checks, runs, service, client)
    unsent(checks, runs, service, client)
    full_output(checks, runs, service)
    fronts.try_fronts(checks, runs, service, client, BUCKET)
    commands.try_commands(checks, runs, service, client)
    listings.try_listings(checks, runs, service, client)
