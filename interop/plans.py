"""Plans, worked out from the rules and not by a merge: `crates/call_rows`, which says in `src/plans.rt` how a row is
written, prints the same.

    python3 interop/plans.py rows | python3 interop/parts.py crates/call_rows/stdin plans put
    python3 interop/plans.py answers | python3 interop/parts.py crates/call_rows/stdout plans put

The first rows are written by hand, with their answers. 300 follow that are drawn at random from one seed. Answers come
from sets of names: which relative paths there are on either side, which of them are chosen, in which order they stand.
"""

import fnmatch
import random
import re
import sys

MOST = 8
S3_MOST = 2**40
TYPES = {"txt": "text/plain", "css": "text/css"}
LONG = "k" * 1024

# each with its answer, as the rules say it: the tasks, then the names that are skipped
BY_HAND = [
    ("sync b: d usual - | | e,1,5,e f,1,5,e l,1,5,e | e,1,5,o f,1,4,o l,1,6,o", "download b:l > d/l 1 5 e"),
    ("sync b: d exact - | | e,1,5,e f,1,5,e l,1,5,e | e,1,5,o f,1,4,o l,1,6,o",
     "download b:f > d/f 1 5 e; download b:l > d/l 1 5 e"),
    ("sync b: d size - | | e,1,5,e f,1,5,e l,1,5,e | e,1,5,o f,1,4,o l,1,6,o", ""),
    ("sync b: d usual d | -*.log | k.txt,1,5,e | k.txt,1,5,o x.log,2,5,o y.txt,3,5,o", "delete d/y.txt 3 5 o"),
    ("copy d b: usual m | -* +*.txt -a/* | a/x.txt,1,5,e b.txt,1,5,e c.log,1,5,e d/y.txt,1,5,e |",
     "upload d/b.txt > b:b.txt 1 5 e; upload d/d/y.txt > b:d/y.txt 1 5 e"),
    ("copy b: b:backup/ usual m | | backup/x,1,5,e x,1,5,e |", "Overlap backup/x"),
    ("copy b: b:backup/ usual m | -backup/* | backup/x,1,5,e x,1,5,e |", "copy b:x > b:backup/x 1 5 e"),
    ("copy b:k b:k usual - | | k,1,5,e |", "Overlap k"),
    ("copy b:k c:k usual - | | k,1,5,e |", "copy b:k > c:k 1 5 e"),
    ("copy b: d usual m | | ../x,1,5,e a//b,1,5,e e/,0,5,e k,1,5,e |",
     "download b:k > d/k 1 5 e; skip b:../x Dots; skip b:a//b EmptyName"),
    ("copy a.txt b: usual g | | a.txt,5,5,e |", "upload a.txt > b:a.txt 5 5 e text/plain"),
    ("copy d/a.txt b:x/ usual v | | a.txt,5,5,e |", "move upload d/a.txt > b:x/a.txt 5 5 e"),
    ("copy b:x/.. d/ usual - | | x/..,5,5,e |", "skip b:x/.. Dots"),
    ("copy b:x/.. d usual - | | x/..,5,5,e |", "download b:x/.. > d 5 5 e"),
    ("copy d b: usual m | | a,9,5,e b,10,5,e |", "TooLarge d/a 9"),
    ("remove b:d/ - usual m | -*.log | d/,0,5,e d/a.log,1,5,e d/e/,0,5,e d/x,9,5,e |",
     "delete b:d/ 0 5 e; delete b:d/e/ 0 5 e; delete b:d/x 9 5 e"),
    ("remove b:absent - usual - | | absent,0,0,e |", "delete b:absent 0 0 e"),
    ("copy d b: usual m | -* +x[]a] | x[,1,5,e x],1,5,e xa,1,5,e xb,1,5,e |",
     "upload d/x] > b:x] 1 5 e; upload d/xa > b:xa 1 5 e"),
    ("copy d b: usual m | -* +x[ | x[,1,5,e x],1,5,e xa,1,5,e |", "upload d/x[ > b:x[ 1 5 e"),
    ("copy d b: usual m | -* +[z-a] | a,1,5,e m,1,5,e z,1,5,e |", ""),
    ("copy d b: usual ms | | a,83886080000,5,e b,83886080001,5,e c,1099511627776,5,e |",
     "upload d/a > b:a 83886080000 5 e; upload d/b > b:b 83886080001 5 e; upload d/c > b:c 1099511627776 5 e"),
    ("copy d b: usual ms | | a,1099511627777,5,e |", "TooLarge d/a 1099511627777"),
    ("sync d b: exact - | | e,1,5,e f,1,5,e l,1,5,e | e,1,5,o f,1,4,o l,1,6,o", "upload d/f > b:f 1 5 e"),
    ("sync b: c: usual - | | e,1,5,e f,1,5,e l,1,5,e | e,1,5,o f,1,4,o l,1,6,o", "copy b:f > c:f 1 5 e"),
    ("sync d b: size - | | g,3,5,e h,2,5,e | g,2,5,o h,3,5,o", "upload d/g > b:g 3 5 e; upload d/h > b:h 2 5 e"),
    ("copy b: b:backup/ usual m | | backup/x,1,5,e x,1,5,e y,9,5,e |", "TooLarge s3://b/y 9"),
    ("copy b: b:a/ usual m | | a/a/x,1,5,e a/x,1,5,e x,1,5,e |", "Overlap a/a/x"),
    ("sync b:p/ b: usual d | | p/a,1,5,e | p/a,1,5,o", "Overlap p/a"),
    ("sync b:p/ c: usual d | | p/a,1,5,e | p/a,1,5,o", "copy b:p/a > c:a 1 5 e; delete c:p/a 1 5 o"),
    ("sync b: b: usual - | | k,1,5,e | k,1,5,o", ""),
    ("sync d b: usual d | | a,1,5,e | a,1,5,o b,9,5,o c/,0,5,o", "delete b:b 9 5 o"),
    ("sync d b: usual - | | a,9,5,e | a,9,5,o", ""),
    ("sync d b: usual d | | a-b,1,5,e a/b,1,5,e z,1,5,e é,1,5,e | A,1,5,o a.b,1,5,o",
     "delete b:A 1 5 o; upload d/a-b > b:a-b 1 5 e; delete b:a.b 1 5 o; upload d/a/b > b:a/b 1 5 e; "
     "upload d/z > b:z 1 5 e; upload d/é > b:é 1 5 e"),
    ("sync b: d usual d | -k | k,1,5,e | k,2,6,o", ""),
    ("sync b: d usual d | | a//b,1,5,e | a//b,2,6,o", "skip b:a//b EmptyName"),
    ("copy a.txt b: usual cf | | a.txt,5,5,e |", "upload a.txt > b:a.txt 5 5 e text/x fresh"),
    ("copy b:a.txt c: usual cgf | | a.txt,5,5,e |", "copy b:a.txt > c:a.txt 5 5 e fresh"),
    (f"copy d b: usual m | | {LONG},1,5,e |", f"upload d/{LONG} > b:{LONG} 1 5 e"),
    (f"copy d b: usual m | | {LONG}k,1,5,e |", f"skip d/{LONG}k LongKey(1025)"),
]


def place(text):
    """A bucket and a key, or a path."""
    return tuple(text.split(":", 1)) if ":" in text else (text,)


def shown(at):
    return ":".join(at)


def below(at, path):
    if len(at) == 2:
        return (at[0], at[1] + path)
    return (at[0] + ("" if at[0].endswith("/") else "/") + path,)


def kept(filters, path):
    said = [sign == "+" for sign, pattern in filters if fnmatch.fnmatchcase(path, pattern)]
    return said[-1] if said else True


def skipped(to, joined, path):
    """Why a name is left out, or None."""
    if len(to) == 2:
        key = to[1] + (path if joined else "")
        size = len(key.encode())
        return "EmptyName" if size == 0 else f"LongKey({size})" if size > 1024 else None
    if not joined:
        return None
    names = path.split("/")
    if "" in names:
        return "EmptyName"
    if "." in names or ".." in names:
        return "Dots"
    if any(re.fullmatch(r".*\.[0-9a-f]{8}\.s3part", name) for name in names):
        return "TempLike"
    return None


def differs(kind, times, one, other):
    if one[0] != other[0]:
        return True
    if times == "size":
        return False
    if kind == "download":
        return one[1] != other[1] if times == "exact" else other[1] > one[1]
    return other[1] < one[1]


def names(at, many, entries, markers):
    """What stands at each relative path: size, time and ETag."""
    found = {}
    for key, size, micros, etag in entries:
        if not markers and key.endswith("/") and size == 0:
            continue
        if many:
            path = key[len(at[1]):] if len(at) == 2 else key
        else:
            path = at[-1].rsplit("/", 1)[-1]
        found[path] = (size, micros, etag)
    return found


def of_three(found):
    return " ".join(map(str, found))


def transfer(kind, flags, came, goes, found):
    """The text of a transfer."""
    text = f"{kind} {shown(came)} > {shown(goes)} {of_three(found)}"
    if kind == "upload":
        ending = came[-1].rsplit("/", 1)[-1].rpartition(".")
        if "c" in flags:
            text += " text/x"
        elif "g" in flags and ending[1] and ending[2].lower() in TYPES:
            text += " " + TYPES[ending[2].lower()]
    return "move " * ("v" in flags) + text + " fresh" * ("f" in flags)


def removals(at, many, entries, filters):
    """The tasks of a removal, by their relative paths."""
    chosen = {}
    for path, found in names(at, many, entries, True).items():
        if kept(filters, path):
            gone = below(at, path) if many else at
            chosen[path] = (None, gone, found[0], f"delete {shown(gone)} {of_three(found)}")
    return chosen


def transfers(kind, at, to, many, times, flags, filters, source, dest):
    """The tasks of a transfer and the warnings, by their relative paths."""
    ours, theirs = names(at, many, source, False), names(to, True, dest, False)
    joined = many or to[-1].endswith("/") or to[1:] == ("",)
    chosen, warnings = {}, {}
    for path in {path for path in ours if kept(filters, path)}:
        came = below(at, path) if many else at
        goes = below(to, path) if joined else to
        why = skipped(to, joined, path)
        if why is not None:
            warnings[path] = f"skip {shown(came)} {why}"
        elif path not in theirs or differs(kind, times, ours[path], theirs[path]):
            chosen[path] = (came, goes, ours[path][0], transfer(kind, flags, came, goes, ours[path]))
    if "d" in flags:
        for path in set(theirs) - set(ours):
            if kept(filters, path):
                gone = below(to, path)
                chosen[path] = (None, gone, theirs[path][0], f"delete {shown(gone)} {of_three(theirs[path])}")
    return chosen, warnings


def in_order(by_path):
    return [by_path[path] for path in sorted(by_path, key=str.encode)]


def refusal(tasks, most):
    """Why a plan is refused, or None."""
    for came, _, size, _ in tasks:
        if came is not None and size > most:
            return f"TooLarge {'s3://' + '/'.join(came) if len(came) == 2 else came[0]} {size}"
    read = {task[0] for task in tasks if task[0] is not None and len(task[0]) == 2}
    both = sorted((task[1][1] for task in tasks if len(task[1]) == 2 and task[1] in read), key=str.encode)
    return f"Overlap {both[0]}" if both else None


def kind_between(at, to):
    if len(at) == 1:
        return "upload"
    return "copy" if len(to) == 2 else "download"


def answer(call, start, end, times, flags, filters, source, dest):
    many = call == "sync" or "m" in flags
    if call == "remove":
        chosen, warnings = removals(place(start), many, source, filters), {}
    else:
        at, to = place(start), place(end)
        kind = kind_between(at, to)
        chosen, warnings = transfers(kind, at, to, many, times, flags, filters, source, dest)
    tasks = in_order(chosen)
    texts = [task[3] for task in tasks] + in_order(warnings)
    return refusal(tasks, S3_MOST if "s" in flags else MOST) or "; ".join(texts)


NAMES = ["a", "a.txt", "a/b", "a//b", "b", "b.log", "b/", "c", "c.css", "d/x.txt", "d/../y", "e/", "x.0123abcd.s3part",
         "é", "z", "p/a", "p/z", "a-b", "a.b", "A"]
PATTERNS = ["*", "*.txt", "a*", "?", "*/*", "b", "[!a]*", "[a-c]*"]


def entry_of(rng, key):
    sizes = [0, 1, 2, 8, 8, 9] if rng.random() < 0.3 else [0, 1, 2]
    return key, rng.choice(sizes), rng.choice([4, 5, 6]), rng.choice("uvw")


def entries_of(rng, prefix, likely):
    return [entry_of(rng, key) for key in sorted({prefix + n for n in NAMES if rng.random() < likely}, key=str.encode)]


def drawn(rng):
    call = rng.choice(["sync", "sync", "sync", "copy", "remove"])
    kind = rng.choice(["upload", "download", "copy"]) if call != "remove" else rng.choice(["object", "file"])
    many = call == "sync" or rng.random() < 0.7
    prefix = rng.choice(["", "p/", "q/r/"])
    if kind in ("upload", "file"):
        start, front = (rng.choice(["d", "d/"]), "") if many else (rng.choice(["a.txt", "d/b"]), "")
    else:
        start, front = ("b:" + prefix, prefix) if many else ("b:" + prefix + rng.choice(["a.txt", "b", ".."]), prefix)
    if call == "remove":
        end, back = "-", ""
    elif kind == "download":
        end, back = rng.choice(["e", "e/"]), ""
    else:
        back = rng.choice(["", "p/", "s/"])
        end = rng.choice(["b", "b", "c"]) + ":" + (back if many or rng.random() < 0.5 else back + "k")
    source = entries_of(rng, front, 0.4)
    if not many:
        key = start.split(":", 1)[-1] if ":" in start else start.rsplit("/", 1)[-1]
        source = [(key, rng.choice([0, 1, 9]), 5, "u")][: rng.choice([1, 1, 1, 0])]
    dest = entries_of(rng, back, 0.4) if call == "sync" else []
    letters = "".join(c for c in "dvgcf" if rng.random() < (0.4 if c in "dvg" else 0.15))
    flags = (("m" if many and call != "sync" else "") + letters) or "-"
    filters = [(rng.choice("+-"), rng.choice(PATTERNS)) for _ in range(rng.choice([0, 0, 1, 2, 3]))]
    return call, start, end, rng.choice(["usual", "usual", "size", "exact"]), flags, filters, source, dest


def row(call, start, end, times, flags, filters, source, dest):
    def list_of(entries):
        return "".join(" " + ",".join(map(str, entry)) for entry in entries)

    shown_filters = "".join(f" {sign}{pattern}" for sign, pattern in filters)
    return f"{call} {start} {end} {times} {flags} |{shown_filters} |{list_of(source)} |{list_of(dest)}"


def parsed(line):
    head, filters, source, dest = line.split("|")
    call, start, end, times, flags = head.split()

    def list_of(text):
        return [(k, int(s), int(m), e) for k, s, m, e in (entry.split(",") for entry in text.split())]

    filters = [(word[0], word[1:]) for word in filters.split()]
    return call, start, end, times, flags, filters, list_of(source), list_of(dest)


def main():
    rng = random.Random(20)
    rows = [(line, wanted) for line, wanted in BY_HAND]
    for line, wanted in rows:
        assert answer(*parsed(line)) == wanted, (line, answer(*parsed(line)), wanted)
    for _ in range(300):
        case = drawn(rng)
        rows.append((row(*case), answer(*case)))
    for line, wanted in rows:
        print(line if sys.argv[1] == "rows" else f"{line} => {wanted}")


main()
