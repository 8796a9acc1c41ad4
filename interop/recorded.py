"""`ls` of listings that real services answered, page by page: each answer is played byte for byte to its own request.

The answers of Ceph's gateway and of OpenStack Swift stand behind `== answers` in the rows of `outside_rows`; they came to
requests of few names a page. A request has to be one of these but for its number of names and for what it leaves empty,
else it is refused.
"""

import datetime
import os
import urllib.parse
import xml.etree.ElementTree as ElementTree

import answers
import hostile
import parts
import service
from listings import first_difference, row

ROWS = os.path.join(os.path.dirname(os.path.dirname(os.path.abspath(__file__))), "crates/outside_rows/stdin")
NAMESPACE = "{http://s3.amazonaws.com/doc/2006-03-01/}"


def pages(form, *tokens):
    """The rows of one listing, each with the token that its request has."""
    return [(form.format(number), token) for number, token in enumerate((None, *tokens), 1)]


# What is listed: bucket, prefix, whether names are cut at the next `/`; and the rows of its pages.
LISTINGS = [
    ("nasty", "", False, pages("ceph/list-v2-url-page-{}", "a%2Bb", "nl\nx")),
    ("nasty", "", True, pages("ceph/list-v2-url-delimiter-page-{}", "a%b", "x?y#z")),
    ("nasty", "dir/", True, pages("ceph/list-v2-url-prefix-delimiter")),
    ("nasty", "\u00e9", False, pages("ceph/list-v2-url-prefix-utf8")),
    ("listing", "", False, pages("swift/ListObjectsV2-url-page-{}", "ZCUyRnIvdw==", "enov")),
    ("listing", "", True, pages("swift/ListObjectsV2-url-delimiter-page-{}", "YTxiPg==", "eiooKSE=")),
    ("listing", "d", False, pages("swift/ListObjectsV2-url-prefix-page-{}", "ZGlyIDIveQ==", "ZGlyL8Op")),
    ("listing", "dir/", True, pages("swift/ListObjectsV2-url-prefix-delimiter-page-{}", "ZGlyL3N1Yi8=")),
    ("controls", "", False, pages("swift/ListObjectsV2-control-chars-url")),
]


def query_of(prefix, delimited, token):
    """What the request of a page names, besides how many names it asks for."""
    named = {"list-type": "2", "encoding-type": "url"}
    optional = {"prefix": prefix, "delimiter": "/" if delimited else "", "continuation-token": token}
    return named | {name: value for name, value in optional.items() if value}


def read_answers():
    """The bytes of each row of answers."""
    rows = (line.split(" ", 2) for line in parts.lines_of(ROWS, "answers"))
    return {row[0]: answers.row_bytes(row[2]) for row in rows if len(row) == 3}


def document(answered):
    """The document of an answer, whose body comes in chunks or to its end."""
    head, _, body = answered.partition(b"\r\n\r\n")
    if b"chunked" not in head.lower():
        return body
    parts = []
    while (size := int(body.partition(b"\r\n")[0], 16)) > 0:
        body = body.partition(b"\r\n")[2]
        parts.append(body[:size])
        body = body[size + 2 :]
    return b"".join(parts)


def named(element):
    return urllib.parse.unquote_plus(element.text or "")


def due(recursive, documents):
    """The rows of a listing, prefixes first, as Python's own reader of XML finds them in the pages."""
    folders, objects = [], []
    for root in map(ElementTree.fromstring, documents):
        for prefix in root.iterfind(f"{NAMESPACE}CommonPrefixes/{NAMESPACE}Prefix"):
            folders.append(f"{'PRE':>30} {named(prefix).removesuffix('/').rpartition('/')[2]}/\n")
        for entry in root.iterfind(f"{NAMESPACE}Contents"):
            key, size = named(entry.find(NAMESPACE + "Key")), entry.findtext(NAMESPACE + "Size")
            time = datetime.datetime.fromisoformat(entry.findtext(NAMESPACE + "LastModified").replace("Z", "+00:00"))
            objects.append(row(time, f"{size:>10} {key if recursive else key.rpartition('/')[2]}"))
    return folders + objects


def plays(bucket, by_query):
    """Answers the request of each page with that page, and any other with a refusal."""

    def serve(peer):
        for _ in by_query:
            target = hostile.take_head(peer)[0].split(" ")[1]
            path, _, query = target.partition("?")
            asked = {name: value for name, value in urllib.parse.parse_qsl(query) if value}
            found = [said for wanted, said in by_query if path == "/" + bucket and asked == wanted]
            peer.sendall(found[0] if found else hostile.DENIED)
        hostile.hold(peer)

    return serve


def try_recorded(checks, runs):
    answers = read_answers()
    for bucket, prefix, delimited, named_pages in LISTINGS:
        by_query = [(query_of(prefix, delimited, token), answers[name]) for name, token in named_pages]
        words = ("ls", f"s3://{bucket}/{prefix}", *(() if delimited else ("--recursive",)))
        with hostile.Server(plays(bucket, by_query)) as server:
            shown = runs.run((*words, "--endpoint-url", f"http://127.0.0.1:{server.port}"), service.KEYS)
        rows = due(not delimited, [document(said) for _, said in by_query])
        same = shown == (0, "".join(rows), "")
        text = f"{len(rows)} rows" if same else f"{shown[0]}: {shown[2].strip()} {first_difference(shown[1], rows)}"
        checks.check(f"{' '.join(words)}, as {named_pages[0][0]}: status and rows", same and rows, text)
        checks.check(f"{' '.join(words)}, as {named_pages[0][0]}: connections", server.opened == 1, str(server.opened))
