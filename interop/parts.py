"""The lines behind one heading of a program's `stdin` or `stdout`, which its parts share.

    python3 interop/parts.py FILE HEADING                 prints the lines behind `== HEADING`
    python3 interop/parts.py FILE HEADING put < LINES     puts these lines in their place
"""

import sys

MARK = "== "


def split(path, heading):
    """The lines of a file up to the heading, those behind it, and those from the next heading on."""
    with open(path, encoding="utf-8", newline="\n") as file:
        lines = file.read().splitlines(keepends=True)
    if f"{MARK}{heading}\n" not in lines:
        sys.exit(f"{path} has no heading {heading}")
    begin = lines.index(f"{MARK}{heading}\n") + 1
    end = next((at for at in range(begin, len(lines)) if lines[at].startswith(MARK)), len(lines))
    return lines[:begin], lines[begin:end], lines[end:]


def lines_of(path, heading):
    """The lines behind a heading, without their ends."""
    return [line.removesuffix("\n") for line in split(path, heading)[1]]


def put(path, heading, lines):
    front, _, behind = split(path, heading)
    with open(path, "w", encoding="utf-8", newline="\n") as file:
        file.writelines([*front, *lines, *behind])


def main(words):
    if len(words) == 2:
        for line in lines_of(*words):
            print(line)
    elif len(words) == 3 and words[2] == "put":
        put(words[0], words[1], sys.stdin.readlines())
    else:
        sys.exit(__doc__)


if __name__ == "__main__":
    main(sys.argv[1:])
