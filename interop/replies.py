"""Documents of a service and what they say, written from the grammar and not from the program: `crates/call_rows` prints
the same.

    python3 interop/replies.py made SEED COUNT > ROWS      documents made at random, two of three of them spoilt
    python3 interop/replies.py read < ROWS > ANSWERS       the value of each, or its first fault
    python3 interop/replies.py picked < ROWS               the shortest rows of each sort, for `== documents` of the crate's stdin

A row is a reader, a space, and the document's bytes, in which `\\xHH` stands for a byte and `\\\\` for `\\`. The judge here
collects every fault of a document with its place, and then takes the first.
"""
import calendar
import datetime
import random
import re
import sys

SPACE = b" \t\n\r"
NAME = b"abcdefghijklmnopqrstuvwxyzABCDEFGHIJKLMNOPQRSTUVWXYZ0123456789_-.:"
QUOTES = b"\"'"
ENTITIES = {"lt": "<", "gt": ">", "amp": "&", "quot": '"', "apos": "'"}
DEEPEST = 16

# Of the elements of a table: what each is, and whether it has to be there. "each" stands any number of times.
PAGE = {
    "root": {
        "IsTruncated": ("truth", True),
        "EncodingType": ("encoding", False),
        "NextContinuationToken": ("text", False),
        "Contents": ("each", "object"),
        "CommonPrefixes": ("each", "prefix"),
    },
    "object": {"Key": ("key", True), "LastModified": ("time", True), "ETag": ("etag", True), "Size": ("number", True)},
    "prefix": {"Prefix": ("prefix", True)},
}
BUCKETS = {
    "root": {"Buckets": ("one", "list")},
    "list": {"Bucket": ("each", "bucket")},
    "bucket": {"Name": ("text", True), "CreationDate": ("time", True)},
}
SHAPES = {
    "error": ("Error", {"root": {"Code": ("text", True), "Message": ("text", False)}}),
    "list": ("ListBucketResult", PAGE),
    "buckets": ("ListAllMyBucketsResult", BUCKETS),
    "created": ("InitiateMultipartUploadResult", {"root": {"UploadId": ("id", True)}}),
    "completed": ("CompleteMultipartUploadResult", {"root": {"ETag": ("text", True)}}),
    "copied": ("CopyObjectResult", {"root": {"ETag": ("etag", True)}}),
    "part": ("CopyPartResult", {"root": {"ETag": ("etag", True)}}),
}
# Where two faults stand at one place, the lower number comes.
NUMBERS = {
    "NotADocument": 1, "Missing": 2, "Twice": 3, "BadNumber": 4, "BadTime": 5, "BadEscape": 6, "TooDeep": 7, "BadText": 9,
}


class Left(Exception):
    """The grammar was left: nothing behind that place counts."""


# ---- values


def utf8_stop(run):
    """The index of the first byte with which no UTF-8 text goes on, or None (RFC 3629, section 4)."""
    at = 0
    while at < len(run):
        lead = run[at]
        if lead < 0x80:
            at += 1
            continue
        if 0xC2 <= lead <= 0xDF:
            tails = [(0x80, 0xBF)]
        elif 0xE0 <= lead <= 0xEF:
            tails = [(0xA0 if lead == 0xE0 else 0x80, 0x9F if lead == 0xED else 0xBF), (0x80, 0xBF)]
        elif 0xF0 <= lead <= 0xF4:
            tails = [(0x90 if lead == 0xF0 else 0x80, 0x8F if lead == 0xF4 else 0xBF), (0x80, 0xBF), (0x80, 0xBF)]
        else:
            return at
        at += 1
        for least, most in tails:
            if at == len(run):
                return None
            if not least <= run[at] <= most:
                return at
            at += 1
    return None


def is_utf8(run):
    try:
        run.decode("utf-8")
        return True
    except UnicodeDecodeError:
        return False


def character(name):
    """What stands between `&` and `;` names, or None."""
    if name in ENTITIES:
        return ENTITIES[name]
    digits = re.fullmatch(r"#([0-9]+)|#x([0-9a-fA-F]+)", name)
    if not digits:
        return None
    number = int(digits[1]) if digits[1] else int(digits[2], 16)
    if number > 0x10FFFF or 0xD800 <= number <= 0xDFFF:
        return None
    return chr(number)


def may_go_on(name):
    """Whether what the end of the bytes cuts short behind a `&` could become a reference."""
    if any((whole + ";").startswith(name) for whole in ENTITIES):
        return True
    if not re.fullmatch(r"#[0-9]*|#x[0-9a-fA-F]*", name):
        return False
    digits = name[2:] if name.startswith("#x") else name[1:]
    return not digits or int(digits, 16 if name.startswith("#x") else 10) <= 0x10FFFF


def moment(text):
    """Microseconds since 1970, or None."""
    parts = re.fullmatch(r"([0-9]{4})-([0-9]{2})-([0-9]{2})T([0-9]{2}):([0-9]{2}):([0-9]{2})(\.[0-9]{1,9})?Z", text)
    if not parts:
        return None
    year, month, day, hour, minute, second = (int(parts[each]) for each in range(1, 7))
    if year < 1970 or not 1 <= month <= 12 or not 1 <= day <= calendar.monthrange(year, month)[1]:
        return None
    if hour > 23 or minute > 59 or second > 59:
        return None
    days = datetime.date(year, month, day).toordinal() - datetime.date(1970, 1, 1).toordinal()
    fraction = parts[7][1:] if parts[7] else ""
    return (days * 86400 + hour * 3600 + minute * 60 + second) * 10**6 + int((fraction + "000000000")[:9]) // 1000


def unescaped(text):
    """What a key under the encoding `url` means, or None."""
    raw, out, at = text.encode("utf-8"), bytearray(), 0
    while at < len(raw):
        if raw[at] == ord("%"):
            digits = raw[at + 1 : at + 3]
            if not re.fullmatch(rb"[0-9a-fA-F]{2}", digits):
                return None
            out.append(int(digits, 16))
            at += 3
        else:
            out.append(ord(" ") if raw[at] == ord("+") else raw[at])
            at += 1
    return bytes(out).decode("utf-8") if is_utf8(out) else None


def value_fault(kind, element, text):
    """The fault of a leaf's text, or None. Keys are judged once the encoding is known."""
    if kind == "number" and not (re.fullmatch("[0-9]+", text) and int(text) < 2**64):
        return "BadNumber", ""
    if kind == "truth" and text not in ("true", "false"):
        return "BadNumber", ""
    if kind == "time" and moment(text) is None:
        return "BadTime", ""
    is_good = {
        "etag": 1 <= len(text) <= 256 and all(0x21 <= ord(each) <= 0x7E for each in text),
        "id": 1 <= len(text.encode()) <= 1024,
        "encoding": text == "url",
    }
    return None if is_good.get(kind, True) else ("BadText", f"({element})")


def debug(text):
    """A text as Rust's `{:?}` writes it."""
    plain = {'"': '\\"', "\\": "\\\\", "\n": "\\n", "\r": "\\r", "\t": "\\t", "\0": "\\0"}
    hidden = lambda each: ord(each) < 32 or 127 <= ord(each) < 160 or ord(each) == 0x10FFFF
    return '"' + "".join(plain.get(each) or (f"\\u{{{ord(each):x}}}" if hidden(each) else each) for each in text) + '"'


# ---- documents


class Judge:
    def __init__(self, shape, doc):
        self.root, self.tables = SHAPES[shape]
        self.doc, self.at = doc, 0
        self.faults, self.keys, self.url, self.found = [], [], None, None

    def fault(self, place, name, what=""):
        self.faults.append((place, NUMBERS[name], name + what))

    def leave(self, place):
        self.fault(place, "NotADocument", f"({place})")
        raise Left

    def byte(self, ahead=0):
        """The byte so far ahead, or -1 behind the last."""
        place = self.at + ahead
        return self.doc[place] if place < len(self.doc) else -1

    def is_of(self, sort):
        return self.byte() >= 0 and self.byte() in sort

    def want(self, byte):
        if self.byte() != ord(byte):
            self.leave(self.at)
        self.at += 1

    def space(self):
        begun = self.at
        while self.is_of(SPACE):
            self.at += 1
        return self.at - begun

    def name(self):
        begun = self.at
        while self.is_of(NAME):
            self.at += 1
        if self.at == begun:
            self.leave(self.at)
        return self.doc[begun : self.at].decode()

    def characters(self, begun, end):
        run = self.doc[begun:end]
        stop = utf8_stop(run)
        if stop is not None:
            self.leave(begun + stop)
        if not is_utf8(run):
            self.leave(end)

    def tag_end(self):
        """Attributes and the end of a tag: whether it is closed, and the place of its `>` or `/>`."""
        while True:
            gap, place = self.space(), self.at
            if self.byte() == ord(">"):
                self.at += 1
                return False, place
            if self.byte() == ord("/"):
                self.at += 1
                self.want(">")
                return True, place
            if gap == 0 or self.byte() < 0:
                self.leave(place)
            self.name()
            self.want("=")
            if not self.is_of(QUOTES):
                self.leave(self.at)
            quote = chr(self.byte())
            self.at += 1
            begun = self.at
            while self.byte() >= 0 and chr(self.byte()) not in ("<", quote):
                self.at += 1
            self.characters(begun, self.at)
            self.want(quote)

    def reference(self, place, end, is_last):
        """The character of the reference at that place, and where it ends."""
        closes = self.doc.find(b";", place, end)
        name = self.doc[place + 1 : closes if closes >= 0 else end]
        name = name.decode("ascii") if name.isascii() else None
        if closes < 0 and is_last and name is not None and may_go_on(name):
            self.leave(len(self.doc))
        char = character(name) if closes >= 0 and name is not None else None
        if char is None:
            self.fault(place, "BadEscape")
            raise Left
        return char, closes + 1

    def text(self):
        """The text up to the next `<`, which has to be there."""
        end = self.doc.find(b"<", self.at)
        is_last = end < 0
        end = len(self.doc) if is_last else end
        said, at = "", self.at
        while at < end:
            if self.doc[at] == ord("&"):
                char, at = self.reference(at, end, is_last)
                said += char
                continue
            stop = self.doc.find(b"&", at, end)
            stop = end if stop < 0 else stop
            self.characters(at, stop)
            said += self.doc[at:stop].decode("utf-8")
            at = stop
        self.at = end
        if is_last:
            self.leave(end)
        return said

    def end_tag(self, name):
        self.at += 2
        for each in name:
            self.want(each)
        if not self.is_of(SPACE + b">"):
            self.leave(self.at)
        self.space()
        self.want(">")

    def leaf(self, kind, name, text, place):
        bad = value_fault(kind, name, text)
        if bad:
            self.fault(place, *bad)
        if kind == "encoding" and self.url is None:
            self.url = text == "url"
        if kind in ("key", "prefix"):
            self.keys.append((place, kind, name, text))

    def child(self, level, table, frame):
        self.at += 1
        name = self.name()
        place = self.at
        if not self.is_of(SPACE + b"/>"):
            self.leave(place)
        kind, inner = table.get(name, ("other", None))
        if level > DEEPEST:
            self.fault(place, "TooDeep")
        if kind not in ("other", "each") and name in frame:
            self.fault(place, "Twice", f"({name})")
        closed, place = self.tag_end()
        if kind in ("other", "each", "one"):
            held = self.content(level, self.tables.get(inner, {}), name, closed, place)
            if kind == "each":
                frame.setdefault(name, []).append(held)
            elif kind == "one":
                frame[name] = held
            return
        text = "" if closed else self.text()
        frame[name] = text
        self.leaf(kind, name, text, place if closed else self.at)
        if not closed:
            if self.byte(1) != ord("/"):
                self.leave(self.at + 1)
            self.end_tag(name)

    def content(self, level, table, name, closed, place):
        frame = {}
        while not closed:
            self.text()
            place = self.at
            if self.byte(1) == ord("/"):
                break
            self.child(level + 1, table, frame)
        for element, (kind, must) in table.items():
            if kind != "each" and must and element not in frame:
                self.fault(place, "Missing", f"({element})")
                break
        if not closed:
            self.end_tag(name)
        return frame

    def declaration(self):
        for each in "<?xml":
            self.want(each)
        end = self.doc.find(b"?>", self.at)
        self.characters(self.at, end if end >= 0 else len(self.doc))
        if end < 0:
            self.leave(len(self.doc))
        self.at = end + 2
        self.space()

    def document(self):
        self.space()
        if self.byte() == ord("<") and self.byte(1) == ord("?"):
            self.declaration()
        self.want("<")
        name = self.name()
        if name != self.root:
            self.leave(self.at)
        closed, place = self.tag_end()
        self.found = self.content(1, self.tables["root"], name, closed, place)
        self.space()
        if self.at < len(self.doc):
            self.leave(self.at)

    def key(self, text):
        return unescaped(text) if self.url else text

    def answer(self):
        try:
            self.document()
        except Left:
            pass
        if self.keys:
            self.url = names_url(self.doc)
        for place, kind, element, text in self.keys:
            key = self.key(text)
            if key is None:
                self.fault(place, "BadEscape")
            elif kind == "key" and not 1 <= len(key.encode()) <= 1024:
                self.fault(place, "BadText", f"({element})")
        return min(self.faults)[2] if self.faults else "Ok" + self.shown(self.found)

    def shown(self, found):
        if self.root == "Error":
            return f" {debug(found['Code'])} {debug(found.get('Message', ''))}"
        if self.root == "InitiateMultipartUploadResult":
            return " " + debug(found["UploadId"])
        if self.root == "CompleteMultipartUploadResult":
            return ""
        if self.root in ("CopyObjectResult", "CopyPartResult"):
            return " " + debug(found["ETag"])
        if self.root == "ListAllMyBucketsResult":
            rows = found["Buckets"].get("Bucket", [])
            return "".join(f' [{debug(row["Name"])} 0 "" {moment(row["CreationDate"])}]' for row in rows)
        out = " " + found["IsTruncated"]
        if "NextContinuationToken" in found:
            out += " token " + debug(found["NextContinuationToken"])
        for row in found.get("Contents", []):
            values = self.key(row["Key"]), int(row["Size"]), row["ETag"], moment(row["LastModified"])
            out += " [{} {} {} {}]".format(debug(values[0]), values[1], debug(values[2]), values[3])
        return out + "".join(" " + debug(self.key(row["Prefix"])) for row in found.get("CommonPrefixes", []))


def names_url(doc):
    """Whether the first `EncodingType` in the root of a page is `url`, where whole elements stand in front of it."""
    judge = Judge("list", doc)
    judge.tables = {"root": {"EncodingType": judge.tables["root"]["EncodingType"]}}
    try:
        judge.document()
    except Left:
        pass
    return judge.url


def bytes_of(text):
    return re.sub(
        rb"\\(\\|x[0-9a-f]{2})",
        lambda found: b"\\" if found[1] == b"\\" else bytes([int(found[1][1:], 16)]),
        text.encode("ascii"),
    )


def answer_of(row):
    shape, _, text = row.partition(" ")
    return Judge(shape, bytes_of(text)).answer()


# ---- documents made at random

TIMES = ["2026-01-02T03:04:05.678Z", "1970-01-01T00:00:00Z"] * 6
TIMES += ["2023-02-30T00:00:00Z", "1969-12-31T23:59:59Z", "x", "2023-02-28T24:00:00Z"]
KEYS = ["a", "a/b", "k+1", "%41"] * 4
KEYS += ["%zz", "%ff", "%C3%A9", "", "x" * 1025, "%61" * 400, "%61" * 1025, "+" * 1024]
ETAGS = ['"d41"', "&quot;d41&quot;"] * 8 + ["", "a b", "e" * 257]
SIZES = ["0", "18446744073709551615", "007"] * 6 + ["18446744073709551616", "", "+1", "x"]
GOOD = [b"&lt;", b"&amp;", b"&#65;", b"&#xE9;", b"&quot;", b"&apos;", b"&gt;", b"&#0;"]
BAD = [b"&", b"&am", b"&nbsp;", b"&#xD800;", b"&#x110000;", b"&#x11000", b"&#", b"&#x", b"&#5529", b"&a&lt;", b"&lt"]
BAD += [b"&#1114112", b"&q\xff;", b"&#00000000000000000000000065;", b"&#99999999999999999999999;", b"&;", b"&amp"]
BAD += [b"&#x10FFFF", b"&#xg", b"&#x1F;"]
NOT_UTF8 = [b"\xff", b"\xc3", b"\xe2\x82", b"\xf0\x9f\x98", b"\xed\xa0\x80", b"\xc0\x80", b"\xe0\x80", b"\xf4\x90", b"\x80"]
OPENINGS = ['<?xml version="1.0"?>', "<?xml?>", "<?xml version='1.0' encoding='UTF-8'?>\n"]
ODD_OPENINGS = [b"<?", b"<?x", b"<?xm", b"<?xml", b"<?xml \xff?>", b"<?xml \xc3?>", b"<?xml \xff", b"<?foo?>", b"<?xmlx?>"]
ODD_OPENINGS += ["<?xml ? > é?>".encode(), b"<?xml \xe2\x82", b"<?xml?><?xml?>"]
IN_CONTENT = [b"&am", b"&nbsp;", b"\xff", b"\xe2\x82", b"<!--", b"<?", b"</x>", b"x"]
IN_TAGS = [b" a", b" a=", b" a='\xff'", b"/", b' x="1"y', b"?", b' a="<', b"z"]


class Maker:
    def __init__(self, seed):
        self.random = random.Random(seed)

    def one(self, choices):
        return self.random.choice(choices)

    def chance(self, share):
        return self.random.random() < share

    def gap(self):
        return self.one(["", "", "", "", " ", "\n", "\t ", "\r"]).encode()

    def attributes(self):
        out = ""
        for _ in range(self.one([0, 0, 0, 0, 1, 2])):
            values = ['""', "''", '"v>w"', "'a\"b'", '"é&x"', '"/>"']
            out += self.one([" ", "\n ", "\t"]) + self.one(["a", "xmlns", "xml:x", "b-1"]) + "=" + self.one(values)
        return out.encode()

    def text(self, plain):
        plain = plain.encode()
        if self.chance(0.93):
            return plain
        odd = [b"", b" ", plain + self.one(GOOD), self.one(GOOD) + plain, plain + self.one(BAD), self.one(BAD) + plain]
        odd += [plain + "é€😀".encode(), plain + self.one(NOT_UTF8), b"true", b"1", b"url"]
        return self.one([*odd, b"x" * self.one([255, 256, 257, 1023, 1024, 1025])])

    def element(self, name, inner):
        tag = b"<" + name.encode() + self.attributes() + self.gap()
        if inner == b"" and self.chance(0.4):
            return tag + b"/>"
        return tag + b">" + inner + b"</" + name.encode() + self.gap() + b">"

    def unknown(self, level=0):
        name = self.one(["Owner", "ID", "Key", "Prefix", "a:b", "Size", "ETag", "KeyCount", "Codex", "x"])
        if level > 3 or self.chance(0.5):
            return self.element(name, self.text(self.one(["", "7", "abc"])))
        return self.element(name, b"".join(self.unknown(level + 1) + self.gap() for _ in range(self.one([0, 1, 2]))))

    def deep(self):
        levels = self.one([12, 13, 14, 15, 16, 17, 18])
        return b"<d>" * levels + self.one([b"", b"x", b"<e/>", b"<!"]) + b"</d>" * levels

    def held(self, rows):
        """Elements in one another's neighbourhood: perhaps one is missing, twice there, unknown, too deep, or moved."""
        rows = list(rows)
        if self.chance(0.1) and rows:
            del rows[self.random.randrange(len(rows))]
        if self.chance(0.07) and rows:
            rows.insert(self.random.randrange(len(rows) + 1), self.one(rows))
        if self.chance(0.3):
            rows.insert(self.random.randrange(len(rows) + 1), self.unknown)
        if self.chance(0.02):
            rows.insert(self.random.randrange(len(rows) + 1), self.deep)
        if self.chance(0.3):
            self.random.shuffle(rows)
        out = b""
        for row in rows:
            out += (b"t" if self.chance(0.01) else self.gap()) + row()
        return out + self.gap()

    def leaf(self, name, *texts):
        return lambda: self.element(name, self.within(self.text(self.one(texts))))

    def within(self, text):
        """A leaf has no element inside; now and then one stands there all the same."""
        return text + self.one([b"<b/>", b"<b>x</b>", b"<b"]) if self.chance(0.01) else text

    def object(self):
        leaves = [self.leaf("Key", *KEYS), self.leaf("LastModified", *TIMES)]
        return self.element("Contents", self.held([*leaves, self.leaf("ETag", *ETAGS), self.leaf("Size", *SIZES)]))

    def prefix(self):
        return self.element("CommonPrefixes", self.held([self.leaf("Prefix", *KEYS)]))

    def page(self):
        rows = [self.leaf("IsTruncated", *["true", "false"] * 10, "True", "")]
        rows += [self.object] * self.one([0, 0, 1, 1, 2]) + [self.prefix] * self.one([0, 0, 1, 2])
        if self.chance(0.5):
            rows.append(self.leaf("EncodingType", *["url"] * 12, "gzip", ""))
        if self.chance(0.3):
            rows.append(self.leaf("NextContinuationToken", "tok", " raw \n", ""))
        self.random.shuffle(rows)
        return self.held(rows)

    def bucket(self):
        return self.element("Bucket", self.held([self.leaf("Name", "b", ""), self.leaf("CreationDate", *TIMES)]))

    def buckets(self):
        return self.element("Buckets", self.held([self.bucket] * self.one([0, 1, 2])))

    def inside(self, shape):
        if shape == "error":
            return self.held([self.leaf("Code", "NoSuchKey", ""), self.leaf("Message", "m &lt; n", "")])
        if shape == "list":
            return self.page()
        if shape == "buckets":
            return self.held([self.buckets])
        if shape == "created":
            return self.held([self.leaf("UploadId", "id", "", "u" * 1024, "u" * 1025)])
        return self.held([self.leaf("ETag", '"d41"', '"d41"', "", "a b")])

    def document(self, shape):
        root = SHAPES[shape][0]
        if self.chance(0.03):
            root = self.one([root + "x", root[:-1], "Foo", "html"])
        part = self.random.random()
        opening = b"" if part < 0.5 else self.one(OPENINGS).encode() if part < 0.93 else self.one(ODD_OPENINGS)
        behind = self.one([b"", b"", b"\n", b" x", b"<", b"\xff"] if self.chance(0.1) else [b"", b"\n"])
        return self.gap() + opening + self.gap() + self.element(root, self.inside(shape)) + behind

    def spoilt(self, doc):
        doc = bytearray(doc)
        for _ in range(self.one([1, 1, 1, 2, 3])):
            if not doc:
                break
            at, way = self.random.randrange(len(doc)), self.random.random()
            if way < 0.3:
                doc = doc[:at]
            elif way < 0.45:
                del doc[at]
            elif way < 0.6:
                doc[at] = self.one(b"<>/ &;=\"'?!x-\xff\xc3\xe2\x82")
            elif way < 0.75:
                doc.insert(at, self.one(b"<>/ &;=\"'?!x\xff\xc3"))
            else:
                byte, pieces = (b"<", IN_CONTENT) if way < 0.85 else (b">", IN_TAGS)
                found = doc.find(byte, at)
                if found >= 0:
                    doc[found:found] = self.one(pieces)
        return bytes(doc)

    def row(self):
        shape = self.one(["list"] * 6 + ["error", "error", "buckets", "buckets", "created", "completed", "copied", "part"])
        doc = self.document(shape)
        doc = doc if self.chance(0.35) else self.spoilt(doc)
        return shape + " " + "".join("\\\\" if each == 92 else chr(each) if 32 <= each < 127 else f"\\x{each:02x}" for each in doc)


def picked(rows):
    """Of each reader and sort of answer the shortest rows, and of places those that lie apart."""
    seen = set()
    for row in sorted(rows, key=len):
        answer = answer_of(row)
        sort = re.sub(r"\(\d+\)", "", answer)
        if sort.startswith("Ok"):
            sort = ("Ok", min(len(answer) // 12, 6))
        elif sort == "NotADocument":
            sort = (sort, min(int(answer[13:-1]) // 40, 3))
        if len(row) < 330 and (row.split(" ")[0], sort) not in seen:
            seen.add((row.split(" ")[0], sort))
            yield row


def main(words):
    if words[:1] == ["made"]:
        maker = Maker(int(words[1]))
        for _ in range(int(words[2])):
            print(maker.row())
        return
    rows = [line.rstrip("\n") for line in sys.stdin]
    for row in picked(rows) if words == ["picked"] else rows:
        print(row if words == ["picked"] else answer_of(row))


if __name__ == "__main__":
    main(sys.argv[1:])
