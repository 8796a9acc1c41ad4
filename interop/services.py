"""What an S3 service answers, worked out from the rules and not by the service in memory: `crates/service_rows`, which
says in `src/steps.rt` how a step is written, prints the same.

    python3 interop/services.py rows | python3 interop/parts.py crates/service_rows/stdin steps put
    python3 interop/services.py answers | python3 interop/parts.py crates/service_rows/stdout steps put

The first steps are written by hand, with their answers. Services that are asked at random from one seed follow.
"""

import random
import sys
from urllib.parse import quote_plus

MICROS = 1_369_353_600_000_000
MIN_PART = 4


class Refused(Exception):
    pass


class Service:
    """Buckets with objects, uploads in parts and tokens; each entity tag, upload and token has the next number."""

    def __init__(self):
        self.buckets, self.uploads, self.ended, self.tokens = {}, {}, {}, {}
        self.made, self.page = 0, 1000

    def number(self):
        self.made += 1
        return self.made

    def bucket(self, name):
        if name not in self.buckets:
            raise Refused("NoSuchBucket")
        return self.buckets[name]

    def there(self, bucket, key, etag=None):
        objects = self.bucket(bucket)
        if key not in objects:
            raise Refused("NoSuchKey")
        if etag is not None and objects[key][1] != etag:
            raise Refused("PreconditionFailed")
        return objects[key]

    def open(self, bucket, key, upload):
        if upload not in self.uploads or self.uploads[upload][:2] != (bucket, key):
            raise Refused("NoSuchUpload")
        return self.uploads[upload][2]

    def store(self, bucket, key, data):
        self.buckets[bucket][key] = (data, str(self.number()))

    def Head(self, bucket, key):
        try:
            data, etag = self.there(bucket, key)
        except Refused:
            raise Refused("404")
        return f'found {len(data)} "{etag}" {MICROS}'

    def Get(self, bucket, key, etag, span):
        data, _ = self.there(bucket, key, etag)
        if span is None:
            return f"got 200 {len(data)} [{data}]"
        first, last = span
        if first > last or last >= len(data):
            raise Refused("InvalidRange")
        piece = data[first:last + 1]
        return f"got 206 {len(piece)} {first}-{last}/{len(data)} [{piece}]"

    def Put(self, data, bucket, key, fresh):
        if key in self.bucket(bucket) and fresh:
            raise Refused("PreconditionFailed")
        self.store(bucket, key, data)
        return "stored"

    def Copy(self, bucket, key, from_bucket, from_key, etag):
        data, _ = self.there(from_bucket, from_key, etag)
        self.bucket(bucket)
        self.store(bucket, key, data)
        return "copied"

    def Delete(self, bucket, key):
        self.bucket(bucket).pop(key, None)
        return "gone"

    def Create(self, bucket, key):
        self.bucket(bucket)
        upload = f"upload-{self.number()}"
        self.uploads[upload] = (bucket, key, {})
        return f"created {upload}"

    def Part(self, data, bucket, key, upload, number):
        parts = self.open(bucket, key, upload)
        parts[number] = (data, str(self.number()))
        return f'part "{parts[number][1]}"'

    def PartCopy(self, bucket, key, upload, number, from_bucket, from_key, etag, span):
        # where both are missing, the upload is what is said to be
        parts = self.open(bucket, key, upload)
        data, _ = self.there(from_bucket, from_key, etag)
        first, last = span
        if first > last or last >= len(data):
            raise Refused("InvalidRange")
        parts[number] = (data[first:last + 1], str(self.number()))
        return f'part "{parts[number][1]}"'

    def Complete(self, bucket, key, upload, etags, fresh):
        if self.ended.get(upload) == etags:
            return "completed"
        if fresh and key in self.buckets.get(bucket, {}):
            raise Refused("PreconditionFailed")
        if not etags:
            raise Refused("InvalidPart")
        parts = self.open(bucket, key, upload)
        pieces = []
        for number, etag in enumerate(etags, 1):
            if number not in parts or parts[number][1] != etag:
                raise Refused("InvalidPart")
            if pieces and len(pieces[-1]) < MIN_PART:
                raise Refused("EntityTooSmall")
            pieces.append(parts[number][0])
        self.store(bucket, key, "".join(pieces))
        self.ended[upload] = etags
        del self.uploads[upload]
        return "completed"

    def Abort(self, bucket, key, upload):
        self.open(bucket, key, upload)
        self.ended[upload] = None
        del self.uploads[upload]
        return "gone"

    def List(self, bucket, prefix, delimited, token):
        if token is not None and token not in self.tokens:
            raise Refused("InvalidArgument")
        objects = self.bucket(bucket)
        names = {}
        for key in objects:
            if not key.startswith(prefix):
                continue
            cut = key.find("/", len(prefix)) if delimited else -1
            names[key if cut < 0 else key[:cut + 1]] = cut < 0
        left = [name for name in sorted(names, key=str.encode) if token is None or name > self.tokens[token]]
        page, rest = left[:self.page], left[self.page:]
        text = "page"
        if rest:
            fresh = f"token-{self.number()}"
            self.tokens[fresh] = page[-1]
            text += f" more {fresh}"
        for name in page:
            if names[name]:
                data, etag = objects[name]
                text += f' {name.replace(" ", "+")},{len(data)},"{etag}",{MICROS}'
        return text + "".join(f' {{{name.replace(" ", "+")}}}' for name in page if not names[name])

    def Buckets(self):
        return "buckets" + "".join(f" {name},0,,{MICROS}" for name in sorted(self.buckets))

    def show(self, bucket, key):
        if key not in self.buckets.get(bucket, {}):
            return "none"
        data, etag = self.buckets[bucket][key]
        return f'"{etag}" [{data}]'


def word(text):
    return quote_plus(text, safe="/") or "-"


def span_word(span):
    return "-" if span is None else f"{span[0]}-{span[1]}"


def written(name, args):
    """A step as it is written."""
    if name == "Get":
        bucket, key, etag, span = args
        return f"Get {word(bucket)} {word(key)} {etag} {span_word(span)}"
    if name == "Put":
        data, bucket, key, fresh = args
        return f"Put {word(data)} {word(bucket)} {word(key)}" + (" fresh" if fresh else "")
    if name == "PartCopy":
        *names, span = args
        return "PartCopy " + " ".join(word(str(part)) for part in names) + f" {span_word(span)}"
    if name == "Complete":
        bucket, key, upload, etags, fresh = args
        listed = ",".join(etags) or "-"
        return f"Complete {word(bucket)} {word(key)} {upload} {listed}" + (" fresh" if fresh else "")
    if name == "List":
        bucket, prefix, delimited, token = args
        return f"List {word(bucket)} {word(prefix)} {'/' if delimited else '-'} {token or '-'}"
    return " ".join([name, *(word(str(part)) for part in args)])


def answered(service, name, args):
    try:
        return getattr(service, name)(*args)
    except Refused as refused:
        return f"refused {refused}"


KEYS = ["a", "a b", "d/a", "d/b", "d/e/f", "d0", "é", "+%"]
DATA = ["", "x", "four", "hello", "eleven12345", "<&>"]


def drawn(rng, service):
    """A request of a service, drawn at random: most are ones that succeed."""
    bucket = rng.choice(["b", "b", "b", "c", "c", "none"])
    key = rng.choice(KEYS)
    known = [(b, k, v[1]) for b in service.buckets for k, v in service.buckets[b].items()]
    source = rng.choice(known) if known and rng.random() < 0.9 else (bucket, key, "0")
    uploads = list(service.uploads.items())
    if uploads and rng.random() < 0.9:
        upload, (up_bucket, up_key, parts) = rng.choice(uploads)
    else:
        upload, up_bucket, up_key, parts = rng.choice(list(service.ended) or ["none"]), bucket, key, {}
    span = (rng.randrange(4), rng.randrange(8))
    etags = [parts[n][1] for n in range(1, len(parts) + 1) if n in parts]
    if upload in service.ended and service.ended[upload] and rng.random() < 0.7:
        etags = service.ended[upload]
    tokens = list(service.tokens) or ["none"]
    return rng.choice([
        ("Head", source[:2]),
        ("Get", (*source, None)),
        ("Get", (*source, span)),
        ("Put", (rng.choice(DATA), bucket, key, rng.random() < 0.3)),
        ("Put", (rng.choice(DATA), bucket, key, False)),
        ("Copy", (bucket, key, *source)),
        ("Delete", (bucket, key)),
        ("Create", (bucket, key)),
        ("Part", (rng.choice(DATA), up_bucket, up_key, upload, rng.choice([1, 1, 2, 2, 3]))),
        ("Part", (rng.choice(DATA), up_bucket, up_key, upload, len(parts) + 1)),
        ("PartCopy", (up_bucket, up_key, upload, len(parts) + 1, *source, span)),
        ("Complete", (up_bucket, up_key, upload, etags, rng.random() < 0.2)),
        ("Abort", (up_bucket, up_key, upload)),
        ("List", (bucket, rng.choice(["", "", "a", "d/", "d"]), rng.random() < 0.5, None)),
        ("List", (bucket, rng.choice(["", "d/"]), rng.random() < 0.5, rng.choice(tokens))),
        ("Buckets", ()),
    ])


def random_steps(seed):
    rng = random.Random(seed)
    service = Service()
    yield "new", "ok"
    for name in "bc":
        service.buckets[name] = {}
        yield f"bucket {name}", "ok"
    service.page = rng.choice([1, 2, 3, 1000])
    yield f"page {service.page}", "ok"
    for _ in range(60):
        name, args = drawn(rng, service)
        yield written(name, args), answered(service, name, args)
    for bucket, key, *_ in [(b, k) for b in service.buckets for k in KEYS]:
        yield f"show {word(bucket)} {word(key)}", service.show(bucket, key)


SLOW = "refuse:503:SlowDown"

BY_HAND = [
    # each request once, with what stands there afterwards
    ("new", "ok"), ("bucket b", "ok"),
    ("Put hello b k", "stored"), ("show b k", '"1" [hello]'),
    ("Head b k", f'found 5 "1" {MICROS}'),
    ("Get b k 1 -", "got 200 5 [hello]"), ("Get b k 1 1-3", "got 206 3 1-3/5 [ell]"),
    ("Get b k 2 -", "refused PreconditionFailed"), ("Get b k 1 1-5", "refused InvalidRange"),
    ("Put again b k fresh", "refused PreconditionFailed"), ("show b k", '"1" [hello]'),
    ("Copy b copy b k 1", "copied"), ("show b copy", '"2" [hello]'),
    ("Delete b copy", "gone"), ("show b copy", "none"), ("Delete b copy", "gone"),
    ("Create b parts", "created upload-3"),
    ("Part four b parts upload-3 1", 'part "4"'), ("PartCopy b parts upload-3 2 b k 1 1-2", 'part "5"'),
    ("Complete b parts upload-3 5,4", "refused InvalidPart"), ("show b parts", "none"),
    ("Complete b parts upload-3 4,5", "completed"), ("show b parts", '"6" [fourel]'),
    ("Complete b parts upload-3 4,5", "completed"), ("show b parts", '"6" [fourel]'),
    ("Create b k", "created upload-7"), ("Abort b k upload-7", "gone"), ("Abort b k upload-7", "refused NoSuchUpload"),
    ("Part x b k upload-7 1", "refused NoSuchUpload"),
    ("page 1", "ok"), ("List b - - -", f'page more token-8 k,5,"1",{MICROS}'),
    ("List b - - token-8", f'page parts,6,"6",{MICROS}'),
    ("Buckets", f"buckets b,0,,{MICROS}"), ("Head none k", "refused 404"), ("Put x none k", "refused NoSuchBucket"),
    # an upload that ended is completed again by its own list alone; each part but the last has a least length
    ("Complete b parts upload-3 5,4", "refused NoSuchUpload"),
    ("Create b small", "created upload-9"), ("Part abc b small upload-9 1", 'part "10"'),
    ("Part d b small upload-9 2", 'part "11"'), ("Complete b small upload-9 10,11", "refused EntityTooSmall"),
    ("show b small", "none"),
    # an answer is lost, then the request is refused: nobody can know what it did
    ("new", "ok"), ("bucket b", "ok"), ("script lost-before 1 PUT /b/a.txt", "ok"),
    ("script refuse:403:AccessDenied 2 PUT /b/a.txt", "ok"),
    ("upload hello b a.txt", "uncertain refusal unknown: refused AccessDenied"),
    ("wire", "talks 2 opened 2 faults 0 pauses 1"), ("show b a.txt", "none"),
    # the same where the first request was served
    ("new", "ok"), ("bucket b", "ok"), ("script lost-after 1 PUT /b/a.txt", "ok"),
    ("script refuse:403:AccessDenied 2 PUT /b/a.txt", "ok"),
    ("upload hello b a.txt", "uncertain refusal unknown: refused AccessDenied"),
    ("wire", "talks 2 opened 2 faults 0 pauses 1"), ("show b a.txt", '"1" [hello]'),
    # a service that is slow twice
    ("new", "ok"), ("bucket b", "ok"), (f"script {SLOW} 1 PUT /b/a.txt", "ok"), (f"script {SLOW} 2 PUT /b/a.txt", "ok"),
    ("upload hello b a.txt", "refusal refusal success done"), ("wire", "talks 3 opened 1 faults 0 pauses 1 2"),
    ("show b a.txt", '"1" [hello]'),
    # and one that is slow always
    ("new", "ok"), ("bucket b", "ok"), (f"script {SLOW} * PUT", "ok"),
    ("upload hello b a.txt", "refusal refusal refusal failed: refused SlowDown"),
    ("wire", "talks 3 opened 1 faults 0 pauses 1 2"), ("show b a.txt", "none"),
    # connections: kept, closed by the answer, and closed for a byte behind the answer
    ("new", "ok"), ("bucket b", "ok"), ("upload hello b 1", "success done"), ("upload hello b 2", "success done"),
    ("wire", "talks 2 opened 1 faults 0 pauses"),
    ("rewire", "ok"), ("script close 1 PUT /b/3", "ok"), ("upload hello b 3", "success done"),
    ("upload hello b 4", "success done"), ("wire", "talks 2 opened 2 faults 0 pauses"),
    ("rewire", "ok"), ("script followed 1 PUT /b/5", "ok"), ("upload hello b 5", "success done"),
    ("upload hello b 6", "success done"), ("wire", "talks 2 opened 2 faults 0 pauses"),
    # answers in chunks, in pieces and cut
    ("new", "ok"), ("bucket b", "ok"), ("Put hello b k", "stored"),
    ("script chunked:2 1 GET", "ok"), ("Get b k 1 -", "got 200 5 [hello]"),
    ("script split:1 2 GET", "ok"), ("Get b k 1 -", "got 200 5 [hello]"),
    ("script cut:20 3 GET", "ok"), ("Get b k 1 -", "open EndedEarly"),
    ("script lost-after 1 DELETE", "ok"), ("Delete b k", "open EndedEarly"), ("show b k", "none"),
    # a request that is served late, and what somebody else writes
    ("new", "ok"), ("bucket b", "ok"), ("script late:2 1 PUT /b/k", "ok"),
    ("Put hello b k", "open EndedEarly"), ("show b k", "none"), ("Head b k", "refused 404"),
    ("Head b k", f'found 5 "1" {MICROS}'), ("foreign 4 put b k other", "ok"), ("foreign 5 remove b k", "ok"),
    ("Get b k 1 -", "refused PreconditionFailed"), ("show b k", '"2" [other]'), ("Head b k", "refused 404"),
    # two rules for one request: it is refused, and the refusal is lost
    ("new", "ok"), ("bucket b", "ok"), ("script refuse:403:AccessDenied * PUT /b/k", "ok"),
    ("script lost-after 1 PUT", "ok"),
    ("upload hello b k", "uncertain refusal unknown: refused AccessDenied"), ("show b k", "none"),
]


def steps():
    yield from BY_HAND
    for seed in range(12):
        yield from random_steps(seed)


def main():
    if sys.argv[1:] == ["rows"]:
        for step, _ in steps():
            print(step)
    elif sys.argv[1:] == ["answers"]:
        for step, answer in steps():
            print(f"{step} => {answer}")
    else:
        sys.exit(__doc__)


if __name__ == "__main__":
    main()
