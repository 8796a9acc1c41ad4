"""What answers mean, written from the documents and not from the program: `crates/outside_rows` prints the same.

    python3 interop/answers.py rows swift=FOLDER ceph=FOLDER | python3 interop/parts.py crates/outside_rows/stdin answers put
    python3 interop/parts.py crates/outside_rows/stdin answers | python3 interop/answers.py classes \\
        | python3 interop/parts.py crates/outside_rows/stdout answers put

Rows are the lines of a table of classes, each with its class written by hand, and answers that services gave. A FOLDER
has INDEX.tsv and, of each line there, NAME.txt: every byte that a service sent for one request, up to 65,536. An answer
that was longer stands cut, as it was recorded. Where its body is nothing but zero bytes, as its entity tag (the MD5 of the
whole body) says, it stands a second time, whole. Heads and bodies are read by http.client, documents by xml.etree, as far
as Amazon S3's documents and RFC 9110 to 9112 go.
"""
import datetime
import hashlib
import http.client
import io
import os
import re
import sys
import xml.etree.ElementTree as ElementTree

RECORDED = 65536
DOCUMENT_LIMIT = 8388608
LARGE_GET = 41943040
AGAIN = ("SlowDown", "ServiceUnavailable", "RequestTimeout")
MESSAGES = {400: "Bad Request", 403: "Forbidden", 404: "Not Found", 412: "Precondition Failed"}
ETAG = re.compile(rb"[\x21-\x7e]{1,256}\Z")


class NoDocument(Exception):
    """The bytes are not the document that was looked for."""


class Broken(Exception):
    """The bytes are no answer."""


# ---- the table of classes, a row or more for each line of it

def answer(status, body="", *lines):
    """An answer that states its length."""
    return "\r\n".join(["HTTP/1.1 " + status, *lines, "Content-Length: %d" % len(body), "", body])


def error(code, message=""):
    return "<Error><Code>%s</Code><Message>%s</Message></Error>" % (code, message)


def result(root, inside):
    return '<?xml version="1.0"?>\n<%s xmlns="http://s3.amazonaws.com/doc/2006-03-01/">%s</%s>' % (root, inside, root)


COPIED = result("CopyObjectResult", "<LastModified>2026-01-02T03:04:05Z</LastModified><ETag>&quot;e&quot;</ETag>")
PART_COPIED = result("CopyPartResult", "<ETag>&quot;e&quot;</ETag>")
COMPLETED = result("CompleteMultipartUploadResult", "<Bucket>b</Bucket><ETag>&quot;e-2&quot;</ETag>")
CREATED = result("InitiateMultipartUploadResult", "<Bucket>b</Bucket><Key>k</Key><UploadId>one</UploadId>")
BUCKETS = result("ListAllMyBucketsResult", "<Buckets><Bucket><Name>b</Name>"
                 "<CreationDate>2026-01-02T03:04:05.000Z</CreationDate></Bucket></Buckets>")
PAGE = result("ListBucketResult", "<IsTruncated>true</IsTruncated><EncodingType>url</EncodingType>"
              "<NextContinuationToken>T1</NextContinuationToken><Contents><Key>a+b%2B</Key><LastModified>"
              "2026-01-02T03:04:05.000Z</LastModified><ETag>&quot;e&quot;</ETag><Size>5</Size></Contents>"
              "<CommonPrefixes><Prefix>d%2F</Prefix></CommonPrefixes>")
TIME = "Last-Modified: Fri, 02 Jan 2026 03:04:05 GMT"
MICROS = "1767323045000000"

TABLE = [
    ("cut-head", "Put", "HTTP/1.1 200 OK\r\n", "open: EndedEarly (again)"),
    ("cut-body", "Get", "HTTP/1.1 200 OK\r\nContent-Length: 5\r\n\r\nhell", "open: EndedEarly (again)"),
    ("interim", "Put", "HTTP/1.1 100 Continue\r\n\r\n" + answer("200 OK"), "open: NotHttp (again)"),
    ("banner", "Put", "SSH-2.0-OpenSSH_9.6\r\n", "open: NotHttp (again)"),
    ("two-lengths", "Put", answer("200 OK", "", "Content-Length: 1"), "open: BadLength (again)"),
    ("put", "Put", answer("200 OK"), "stored"),
    ("put-299", "Put", answer("299 Odd"), "stored"),
    ("put-error-in-200", "Put", answer("200 OK", error("InternalError")), "stored"),
    ("get", "Get", answer("200 OK", "hello"), "got 200 5"),
    ("get-range", "Get", answer("206 Partial Content", "ell", "Content-Range: bytes 1-3/5"), "got 206 3 1-3/5"),
    ("get-204", "Get", "HTTP/1.1 204 No Content\r\n\r\n", "got 204 0"),
    ("delete", "Delete", "HTTP/1.1 204 No Content\r\n\r\n", "gone"),
    ("abort", "Abort", "HTTP/1.1 204 No Content\r\n\r\n", "gone"),
    ("head", "Head", "HTTP/1.1 200 OK\r\nContent-Length: 5\r\nETag: \"e\"\r\n" + TIME + "\r\n\r\n",
     "found 5 \"e\" " + MICROS),
    ("head-no-length", "Head", "HTTP/1.1 200 OK\r\nETag: \"e\"\r\n" + TIME + "\r\n\r\n", "open: Document (again)"),
    ("head-no-etag", "Head", "HTTP/1.1 200 OK\r\nContent-Length: 5\r\n" + TIME + "\r\n\r\n", "open: Document (again)"),
    ("head-no-time", "Head", "HTTP/1.1 200 OK\r\nContent-Length: 5\r\nETag: \"e\"\r\n\r\n", "open: Document (again)"),
    ("part", "Part", answer("200 OK", "", "ETag: \"e\""), "part \"e\""),
    ("part-no-etag", "Part", answer("200 OK"), "open: Document (again)"),
    ("create", "Create", answer("200 OK", CREATED), "created one"),
    ("create-error-in-200", "Create", answer("200 OK", error("AccessDenied")), "open: Document (again)"),
    ("copy", "Copy", answer("200 OK", COPIED), "copied"),
    ("copy-root-of-a-part", "Copy", answer("200 OK", PART_COPIED), "open: Document (again)"),
    ("copy-error-in-200", "Copy", answer("200 OK", error("AccessDenied", "Access Denied")),
     "refused AccessDenied: Access Denied"),
    ("copy-no-document", "Copy", answer("200 OK"), "open: Document (again)"),
    ("part-copy", "PartCopy", answer("200 OK", PART_COPIED), "part \"e\""),
    ("part-copy-root-of-an-object", "PartCopy", answer("200 OK", COPIED), "open: Document (again)"),
    ("part-copy-slow-down-in-200", "PartCopy", answer("200 OK", error("SlowDown")), "refused SlowDown:  (again)"),
    ("complete", "Complete", answer("200 OK", COMPLETED), "completed"),
    ("complete-error-in-200", "Complete", answer("200 OK", error("InvalidPart", "bad part")),
     "refused InvalidPart: bad part"),
    ("complete-internal-error-in-200", "Complete", answer("200 OK", error("InternalError", "We")),
     "open: Internal (again)"),
    ("complete-other-root", "Complete", answer("200 OK", CREATED), "open: Document (again)"),
    ("list", "List", answer("200 OK", PAGE), 'page more then T1 [a b+ 5 "e" ' + MICROS + "] {d/}"),
    ("list-error-in-200", "List", answer("200 OK", error("AccessDenied")), "open: Document (again)"),
    ("buckets", "Buckets", answer("200 OK", BUCKETS), "buckets [b 0  " + MICROS + "]"),
    ("put-300", "Put", answer("300 Multiple Choices"), "refused 300: Refused"),
    ("get-304", "Get", "HTTP/1.1 304 Not Modified\r\n\r\n", "refused 304: Refused"),
    ("put-400", "Put", answer("400 Bad Request"), "refused 400: Bad Request"),
    ("put-400-timeout", "Put", answer("400 Bad Request", error("RequestTimeout")), "refused RequestTimeout:  (again)"),
    ("put-403", "Put", answer("403 Forbidden", error("AccessDenied", "Access Denied")),
     "refused AccessDenied: Access Denied"),
    ("put-403-other-document", "Put", answer("403 Forbidden", "<html/>"), "refused 403: Forbidden"),
    ("list-404", "List", answer("404 Not Found", error("NoSuchBucket")), "refused NoSuchBucket: "),
    ("head-404", "Head", "HTTP/1.1 404 Not Found\r\nContent-Length: 9\r\n\r\n", "refused 404: Not Found"),
    ("head-404-with-a-document", "Head", answer("404 Not Found", error("NoSuchKey")), "refused 404: Not Found"),
    ("get-412", "Get", answer("412 Precondition Failed"), "refused 412: Precondition Failed"),
    ("put-499", "Put", answer("499 Odd"), "refused 499: Refused"),
    ("put-500", "Put", answer("500 Internal Server Error", error("InternalError")), "open: Status(500) (again)"),
    ("put-500-slow-down", "Put", answer("500 Internal Server Error", error("SlowDown")), "open: Status(500) (again)"),
    ("put-503-slow-down", "Put", answer("503 Slow Down", error("SlowDown", "Slow")), "refused SlowDown: Slow (again)"),
    ("put-503-unavailable", "Put", answer("503 Service Unavailable", error("ServiceUnavailable")),
     "refused ServiceUnavailable:  (again)"),
    ("put-503-other", "Put", answer("503 Service Unavailable", error("InternalError")), "open: Status(503) (again)"),
    ("put-503-no-document", "Put", answer("503 Service Unavailable"), "open: Status(503) (again)"),
    ("head-503", "Head", answer("503 Service Unavailable"), "open: Status(503) (again)"),
    ("put-999", "Put", answer("999 Odd"), "open: Status(999) (again)"),
]


# ---- rows

def written(data):
    out = []
    for byte in data:
        out.append(chr(byte) if 32 <= byte < 127 and byte != 92 else "\\x%02x" % byte)
    return "".join(out)


def row_bytes(text):
    def one(match):
        word = match.group(1)
        if word[0] == "z":
            return "\0" * int(word[1:-1])
        return {"r": "\r", "n": "\n"}.get(word) or chr(int(word[1:], 16))
    return re.sub(r"\\(r|n|x[0-9a-f]{2}|z[0-9]+;)", one, text).encode("latin-1")


def operation(method, target, copies):
    """The operation of a request, or None where the product makes none like it."""
    path, _, query = target.partition("?")
    names = {word.partition("=")[0] for word in query.split("&") if word}
    bucket, _, key = path.lstrip("/").partition("/")
    if not bucket:
        return "Buckets" if method == "GET" and not names else None
    if not key:
        return "List" if method == "GET" and "list-type" in names else None
    if not names:
        plain = {"HEAD": "Head", "GET": "Get", "PUT": "Copy" if copies else "Put", "DELETE": "Delete"}
        return plain.get(method)
    if names == {"uploads"}:
        return "Create" if method == "POST" else None
    if names == {"uploadId"}:
        return {"POST": "Complete", "DELETE": "Abort"}.get(method)
    if names == {"partNumber", "uploadId"} and method == "PUT":
        return "PartCopy" if copies else "Part"
    return None


def copies(folder, name, noted):
    request = os.path.join(folder, name + ".req")
    if os.path.exists(request):
        noted = open(request, "rb").read().decode("latin-1")
    return "x-amz-copy-source:" in noted.lower()


def recorded(service, folder):
    """The rows of one service: answers to requests that the product makes, whole or cut where the recording ends."""
    lines = open(os.path.join(folder, "INDEX.tsv"), encoding="utf-8").read().splitlines()
    column = lines[0].split("\t").index("request")
    for line in lines[1:]:
        cells = line.split("\t")
        name, request = cells[0], cells[column]
        path = os.path.join(folder, name + ".txt")
        words = request.split(" ")
        if len(words) != 2 or not os.path.exists(path):
            continue
        of = operation(words[0], words[1], copies(folder, name, " ".join(cells[2:])))
        data = open(path, "rb").read()
        row = "%s/%s" % (service, name)
        if of and 0 < len(data) < 16384:
            yield "%s %s %s" % (row, of, spelled(data))
        elif of and len(data) == RECORDED:
            yield from cut(row, of, data)


def cut(row, of, data):
    """The rows of an answer whose recording was cut; a Get of 40 MiB takes that much."""
    head, _, body = data.partition(b"\r\n\r\n")
    length = re.search(rb"\r\ncontent-length: *([0-9]+)", head, re.I)
    if of == "Get" and length and int(length.group(1)) == LARGE_GET:
        of = "LargeGet"
    yield "%s %s %s" % (row, of, spelled(data))
    etag = re.search(rb'\r\netag: *"([0-9a-f]{32})"', head, re.I)
    if length and etag and not body.strip(b"\0"):
        body = bytes(int(length.group(1)))
        if hashlib.md5(body).hexdigest().encode() == etag.group(1):
            yield "%s-whole %s %s" % (row, of, spelled(head + b"\r\n\r\n" + body))


def spelled(data):
    head, _, zeros = data.partition(bytes(1024))
    if not zeros.strip(b"\0") and zeros:
        return spelled(head) + "\\z%d;" % (len(data) - len(head))
    return written(data).replace("\\x0d", "\\r").replace("\\x0a", "\\n")


# ---- answers

class Played:
    """A socket that plays bytes."""

    def __init__(self, data):
        self.data = data

    def makefile(self, mode):
        return io.BytesIO(self.data)


def read_answer(data, of, limit):
    """The answer's status, header lines and body, which has at most `limit` bytes."""
    first = re.match(rb"HTTP/1\.[01] ([0-9]{3})[ \r\n]", data)
    if not first or int(first.group(1)) < 200:
        raise Broken("NotHttp")
    if b"\r\n\r\n" not in data:
        raise Broken("EndedEarly")
    answer = http.client.HTTPResponse(Played(data), method="HEAD" if of == "Head" else "GET")
    try:
        answer.begin()
        fields = [(name.lower(), value) for name, value in answer.headers.raw_items()]
        judge_length(fields)
        if of != "Head" and int(stated(fields) or 0) > limit:
            raise Broken("BodyTooLong")
        return answer.status, fields, answer.read()
    except http.client.IncompleteRead:
        raise Broken("EndedEarly")


def judge_length(fields):
    lengths = [value.strip() for name, value in fields if name == "content-length"]
    codings = [value.strip().lower() for name, value in fields if name == "transfer-encoding"]
    if any(not re.fullmatch("[0-9]{1,19}", value) for value in lengths) or len({int(v) for v in lengths}) > 1:
        raise Broken("BadLength")
    if codings and (codings != ["chunked"] or lengths):
        raise Broken("BadLength")


def stated(fields):
    return first(fields, "content-length")


def first(fields, name):
    return next((value.strip(" \t") for other, value in fields if other == name), None)


def etag_of(fields):
    value = first(fields, "etag")
    return value if value and ETAG.match(value.encode("latin-1")) else None


def micros_of(fields):
    for form in ("%a, %d %b %Y %H:%M:%S GMT", "%A, %d-%b-%y %H:%M:%S GMT", "%a %b %d %H:%M:%S %Y"):
        try:
            return epoch_micros(datetime.datetime.strptime(first(fields, "last-modified") or "", form))
        except ValueError:
            pass
    return None


def epoch_micros(time):
    return (time - datetime.datetime(1970, 1, 1)) // datetime.timedelta(microseconds=1)


# ---- documents

def root_of(body, name):
    """The root element of a document with that root. Texts are as they stand: XML's own change of line ends, and its
    refusal of characters, are undone."""
    try:
        text = body.decode("utf-8")
    except UnicodeDecodeError:
        raise NoDocument
    if "<!" in text:
        raise NoDocument
    text = re.sub(r"^[ \t\r\n]*(<\?xml.*?\?>)?", "", text, flags=re.S)
    text = re.sub(r"&#(x[0-9A-Fa-f]+|[0-9]+);", lambda m: kept(m.group(1)), text)
    text = re.sub("[\x00-\x08\x0b-\x1f\x7f\ufffe\uffff]", lambda m: hidden(ord(m.group())), text)
    try:
        root = ElementTree.fromstring(text)
    except ElementTree.ParseError:
        raise NoDocument
    if bare(root) != name or depth(root) > 16:
        raise NoDocument
    return root


def kept(number):
    code = int(number[1:], 16) if number[0] == "x" else int(number)
    if code > 0x10FFFF or 0xD800 <= code < 0xE000:
        raise NoDocument
    return hidden(code) if code < 32 or code in (0x7F, 0xFFFE, 0xFFFF) else "&#%d;" % code


def hidden(code):
    return chr(0xF0000 + code)


def shown(text):
    return "".join(chr(ord(c) - 0xF0000) if 0xF0000 <= ord(c) < 0x100000 else c for c in text)


def bare(element):
    return element.tag.rpartition("}")[2]


def depth(element):
    return 1 + max((depth(child) for child in element), default=0)


def named(parent, name):
    return [child for child in parent if bare(child) == name]


def leaf(parent, name, absent=None):
    found = named(parent, name)
    if not found and absent is not None:
        return absent
    if len(found) != 1 or len(found[0]):
        raise NoDocument
    return shown(found[0].text or "")


def listed_etag(text):
    if not ETAG.match(text.encode()):
        raise NoDocument
    return text


def time_of(text):
    match = re.fullmatch(r"([0-9]{4}-[0-9]{2}-[0-9]{2}T[0-9]{2}:[0-9]{2}:[0-9]{2})(?:\.([0-9]{1,9}))?Z", text)
    try:
        time = datetime.datetime.strptime(match.group(1), "%Y-%m-%dT%H:%M:%S")
    except (AttributeError, ValueError):
        raise NoDocument
    if time.year < 1970:
        raise NoDocument
    return epoch_micros(time) + int((match.group(2) or "").ljust(6, "0")[:6])


def number_of(text):
    if not re.fullmatch("[0-9]+", text) or int(text) >= 2 ** 64:
        raise NoDocument
    return int(text)


def short(text):
    if not 1 <= len(text.encode()) <= 1024:
        raise NoDocument
    return text


def unescaped(text, url):
    if not url:
        return text
    data = text.encode()
    if re.search(rb"%(?![0-9A-Fa-f]{2})", data):
        raise NoDocument
    data = re.sub(rb"%(..)", lambda m: bytes([int(m.group(1), 16)]), data.replace(b"+", b" "))
    try:
        return data.decode("utf-8")
    except UnicodeDecodeError:
        raise NoDocument


def entry(parts, key):
    return "[%s %d %s %d]" % (written(key.encode()), parts["size"], written(parts["etag"].encode()), parts["micros"])


def page_of(root):
    truths = {"true": "more", "false": "last"}
    out = ["page", truths.get(leaf(root, "IsTruncated")) or missing()]
    if named(root, "NextContinuationToken"):
        out.append("then " + written(leaf(root, "NextContinuationToken").encode()))
    encoding = leaf(root, "EncodingType", "none")
    if encoding not in ("none", "url"):
        raise NoDocument
    for content in named(root, "Contents"):
        key = short(unescaped(leaf(content, "Key"), encoding == "url"))
        out.append(entry({"size": number_of(leaf(content, "Size")), "etag": listed_etag(leaf(content, "ETag")),
                          "micros": time_of(leaf(content, "LastModified"))}, key))
    for common in named(root, "CommonPrefixes"):
        out.append("{%s}" % written(unescaped(leaf(common, "Prefix"), encoding == "url").encode()))
    return " ".join(out)


def missing():
    raise NoDocument


def buckets_of(root):
    lists = named(root, "Buckets")
    if len(lists) != 1:
        raise NoDocument
    rows = [entry({"size": 0, "etag": "", "micros": time_of(leaf(bucket, "CreationDate"))}, leaf(bucket, "Name"))
            for bucket in named(lists[0], "Bucket")]
    return " ".join(["buckets"] + rows)


# ---- classes

def error_of(body):
    root = root_of(body, "Error")
    return leaf(root, "Code"), leaf(root, "Message", "")


def reply_of(of, status, fields, body):
    """What a 2xx says; it raises NoDocument where what the request needs is not there."""
    if of == "Head":
        facts = first(fields, "content-length"), etag_of(fields), micros_of(fields)
        return "found %d %s %d" % (int(facts[0]), facts[1], facts[2]) if None not in facts else missing()
    if of == "Get":
        span = re.fullmatch("bytes ([0-9]+)-([0-9]+)/([0-9]+)", first(fields, "content-range") or "")
        return "got %d %d" % (status, len(body)) + (" %s-%s/%s" % span.groups() if span else "")
    if of == "Part":
        return "part " + (etag_of(fields) or missing())
    if of in ("Put", "Delete", "Abort"):
        return "stored" if of == "Put" else "gone"
    if of == "List":
        return page_of(root_of(body, "ListBucketResult"))
    if of == "Buckets":
        return buckets_of(root_of(body, "ListAllMyBucketsResult"))
    if of == "Create":
        return "created " + short(leaf(root_of(body, "InitiateMultipartUploadResult"), "UploadId"))
    if of == "Complete":
        leaf(root_of(body, "CompleteMultipartUploadResult"), "ETag")
        return "completed"
    etag = listed_etag(leaf(root_of(body, "CopyPartResult" if of == "PartCopy" else "CopyObjectResult"), "ETag"))
    return "part " + etag if of == "PartCopy" else "copied"


def refused(code, message):
    end = " (again)" if code in AGAIN else ""
    return "refused %s: %s%s" % (written(code.encode()), written(message.encode()), end)


def success(of, status, fields, body):
    try:
        return reply_of(of, status, fields, body)
    except NoDocument:
        pass
    try:
        code, message = error_of(body)
    except NoDocument:
        code = None
    if of not in ("Copy", "PartCopy", "Complete") or code is None:
        return "open: Document (again)"
    return "open: Internal (again)" if code == "InternalError" else refused(code, message)


def class_of(data, of):
    limit = LARGE_GET if of == "LargeGet" else DOCUMENT_LIMIT
    of = "Get" if of == "LargeGet" else of
    try:
        status, fields, body = read_answer(data, of, limit)
    except Broken as why:
        return "open: %s (again)" % why
    if status < 300:
        return success(of, status, fields, body)
    try:
        error = error_of(body) if of != "Head" else None
    except NoDocument:
        error = None
    if status < 500:
        return refused(*(error or (str(status), MESSAGES.get(status, "Refused"))))
    if status == 503 and error and error[0] in ("SlowDown", "ServiceUnavailable"):
        return refused(*error)
    return "open: Status(%d) (again)" % status


def main():
    if sys.argv[1:2] == ["rows"]:
        for name, of, text, _ in TABLE:
            print("table/%s %s %s" % (name, of, spelled(text.encode())))
        for folder in sys.argv[2:]:
            for row in recorded(*folder.split("=", 1)):
                print(row)
    elif sys.argv[1:] == ["classes"]:
        by_hand = {"table/" + name: of_row for name, _, _, of_row in TABLE}
        for row in sys.stdin.read().splitlines():
            name, of, text = row.split(" ", 2)
            found = class_of(row_bytes(text), of)
            if by_hand.get(name, found) != found:
                sys.exit("%s: %s is written in the table" % (name, by_hand[name]))
            print("%s %s => %s" % (name, of, found))
    else:
        sys.exit(__doc__)


if __name__ == "__main__":
    main()
