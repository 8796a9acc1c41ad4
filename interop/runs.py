"""Whole runs of a few tasks, move by move, worked out from the rules of acts, lanes and parts: `crates/run_rows`, which
says in `src/runs.rt` how a row is written, prints the same.

    python3 interop/runs.py drawn       the last rows behind `== runs` in crates/run_rows/stdin
    python3 interop/parts.py crates/run_rows/stdin runs | python3 interop/runs.py answers \\
        | python3 interop/parts.py crates/run_rows/stdout runs put

The last 200 rows are drawn at random from one seed, those before them are written by hand. A task is a table of its
acts with what came of each. At each move it is looked at anew which acts may be given, which lane is the freest, and
whether a part is free.
"""

import random
import sys
import typing

MIN_PART, MAX_PART, MAX_PARTS, MAX_OBJECT = 4, 64, 4, 256
THRESHOLD, CHUNK, ATTEMPTS, MOST_DEPTH = 8, 4, 3, 64
DRAWN = 200

OPS = ("Get", "Put", "Copy", "Delete", "Create", "Part", "PartCopy", "Complete", "Abort")
OPS_OF_PARTS = ("Get", "Put", "Part")
CODES_TRIED_AGAIN = ("SlowDown", "ServiceUnavailable", "RequestTimeout", "InternalError", "Throttling")
FILE_CALLS = {"Read": "Read", "Assemble": "Create", "Place": "Write", "Rename": "Rename", "Remove": "Remove"}

# What came of an act that was given. A kept job is to be given again.
OUT, KEPT, FINE, FAILED = "out", "kept", "fine", "failed"


class Stuck(Exception):
    """What a row says can't come."""


class Act(typing.NamedTuple):
    """A call on files, or the giving of a job, which is named by its op."""

    name: str
    number: int | None = None

    def is_job(self):
        return self.name in OPS

    def rank(self):
        """Calls on files go before jobs, and these before reads; then the least number."""
        return (2 if self.name == "Read" else 1 if self.is_job() else 0), self.number or 0

    def words(self):
        return self.name if self.number is None else f"{self.name} {self.number}"


ASSEMBLE, RENAME, STAMP, REMOVE, DROP_TEMP = map(Act, ("Assemble", "Rename", "Stamp", "Remove", "DropTemp"))
CREATE, COMPLETE, ABORT, DELETE = (Act(op, 0) for op in ("Create", "Complete", "Abort", "Delete"))


def length_of_pieces(size):
    chunk = CHUNK
    while -(-size // chunk) > MAX_PARTS:
        chunk *= 2
    return max(MIN_PART, min(MAX_PART, chunk))


class Task:
    def __init__(self, kind, moves, size):
        self.kind, self.size = kind, size
        self.moves = moves and not kind.startswith("remove")
        self.is_small = size < THRESHOLD
        self.length = length_of_pieces(size)
        self.numbers = [0] if self.is_small else range(1, -(-size // self.length) + 1)
        self.came = {}
        self.pieces_here = set()
        self.failure = self.reason = self.outcome = None
        self.had_memory = True
        self.may_have_been_done = False
        self.cause_of_last = None

    def is_fine(self, act):
        return self.came.get(act) == FINE

    def is_idle(self):
        return OUT not in self.came.values()

    def range_of(self, number):
        first = (number - 1) * self.length
        return first, min(self.length, self.size - first)

    # ---- its acts

    def acts_in_parts(self, op):
        yield CREATE
        if self.is_fine(CREATE):
            for number in self.numbers:
                if op == "Part":
                    yield Act("Read", number)
                if op == "PartCopy" or self.is_fine(Act("Read", number)):
                    yield Act(op, number)
            if all(self.is_fine(Act(op, number)) for number in self.numbers):
                yield COMPLETE

    def acts_of_upload(self):
        if not self.is_small:
            yield from self.acts_in_parts("Part")
        else:
            yield Act("Read", 0)
            if self.is_fine(Act("Read", 0)):
                yield Act("Put", 0)

    def acts_of_copy(self):
        if self.is_small:
            yield Act("Copy", 0)
        else:
            yield from self.acts_in_parts("PartCopy")

    def acts_of_download(self):
        yield ASSEMBLE
        if self.is_fine(ASSEMBLE):
            for number in self.numbers:
                yield Act("Get", number)
                if self.is_fine(Act("Get", number)):
                    yield Act("Place", number)
            if all(self.is_fine(Act("Place", number)) for number in self.numbers):
                yield RENAME

    def acts_of_stop(self):
        """What is left to a task that stopped."""
        if self.is_idle():
            if self.is_fine(CREATE) and not self.is_fine(COMPLETE):
                yield ABORT
            if self.is_fine(ASSEMBLE) and not self.is_fine(RENAME):
                yield DROP_TEMP

    def acts_of_kind(self):
        by_kind = {"upload": self.acts_of_upload, "download": self.acts_of_download, "copy": self.acts_of_copy}
        if self.kind in by_kind:
            yield from by_kind[self.kind]()
        else:
            yield self.deciding_act()
        goes = self.came.get(STAMP) in (FINE, FAILED) if self.kind == "download" else self.is_decided()
        if self.moves and goes:
            yield self.removal()

    def acts(self):
        """What may be given by now, or was."""
        yield from self.acts_of_stop() if self.failure or self.reason else self.acts_of_kind()
        if self.is_fine(RENAME):
            yield STAMP

    def ready(self):
        """The act that is given next, or None."""
        open_acts = [act for act in self.acts() if self.came.get(act) in (None, KEPT)]
        return min(open_acts, key=Act.rank, default=None)

    # ---- how it ends

    def deciding_act(self):
        """By this its destination is written or removed."""
        if self.kind in ("upload", "copy") and not self.is_small:
            return COMPLETE
        return {
            "upload": Act("Put", 0),
            "copy": Act("Copy", 0),
            "download": RENAME,
            "remove-object": DELETE,
            "remove-file": REMOVE,
        }[self.kind]

    def removal(self):
        """By this the source of a move goes."""
        return REMOVE if self.kind == "upload" else DELETE

    def is_decided(self):
        return self.is_fine(self.deciding_act())

    def drop_pieces(self):
        """Only pieces whose job is out stay here."""
        self.pieces_here = {
            number for number in self.pieces_here if any(self.came.get(Act(op, number)) == OUT for op in OPS_OF_PARTS)
        }

    def fail(self, cause):
        self.failure = self.failure or cause
        self.had_memory = self.had_memory and cause != "Memory"
        self.drop_pieces()

    def cancel(self, reason):
        if self.outcome is None:
            self.reason = self.reason or reason
            self.drop_pieces()

    def settle(self):
        """Gives a task its outcome that has nothing left to do."""
        if self.outcome is None and self.ready() is None and self.is_idle():
            self.outcome = self.how_it_ended()

    def how_it_ended(self):
        cause = self.failure or f"Cancelled {self.reason}"
        if not self.had_memory:
            cause = "Memory"
        if self.is_decided():
            return "Done" if not self.moves or self.is_fine(self.removal()) else f"Copied {cause}"
        if self.may_have_been_done:
            return f"Unknown {self.cause_of_last if self.had_memory else cause}"
        return f"Failed {cause}"


class Job(typing.NamedTuple):
    number_of_task: int
    act: Act
    has_cell: bool


class Back(typing.NamedTuple):
    """How a job comes back: how many attempts it made, which cause it failed by, if any, and whether that is tried
    again."""

    attempts: int
    cause: str | None
    is_tried_again: bool


def cause_of_got(task, act, words):
    """Why what a Get brought is not what it asked for, or None."""
    asked = f"200/{task.size}"
    if act.number > 0:
        first, length = task.range_of(act.number)
        asked = f"206/{first}-{first + length - 1}/{task.size}"
    return None if words == asked else f"BadReply {act.name}"


def cause_of_refusal(act, status, code):
    is_changed = status == "412" or code == "PreconditionFailed"
    return "Changed" if is_changed and act.name in ("Get", "Copy", "PartCopy") else f"Service {act.name} {code}"


def way_back(task, act, came):
    *earlier, last = came.split(" ")
    name, _, words = last.partition("/")
    attempts = len(earlier) + 1
    if name == "refused":
        status, code = words.split("/")
        return Back(attempts, cause_of_refusal(act, status, code), code in CODES_TRIED_AGAIN)
    if name == "lost":
        why = words or "EndedEarly"
        return Back(attempts, "Memory" if why == "Memory" else f"Lost {act.name} {why}", why != "Memory")
    if name == "got":
        return Back(attempts, cause_of_got(task, act, words), False)
    if name == "cut":
        return Back(0, f"Cancelled {words}", True)
    if name == "memory":
        return Back(len(earlier), "Memory", False)
    return Back(attempts, None, False)


class Run:
    def __init__(self, tasks, lanes, queue, buffers, sayings):
        self.tasks, self.queue, self.buffers, self.sayings = tasks, queue, buffers, sayings
        self.lanes = [[] for _ in range(lanes)]
        self.depth = min(MOST_DEPTH, max(1, queue // lanes))
        self.made = self.lined = self.entries = 0
        self.shown = []

    def take(self, words, default=None):
        """What is behind these words in the first saying that begins with them, which counts once."""
        for place, saying in enumerate(self.sayings):
            if saying.startswith(words + " "):
                return self.sayings.pop(place)[len(words) + 1 :]
        return default

    def has_part(self, task, act):
        """Whether the act needs no part, has one, or one is free."""
        if act.name not in ("Read", "Get") or act.number in task.pieces_here:
            return True
        return sum(len(each.pieces_here) for each in self.tasks) < self.buffers

    def next_act(self, are_jobs):
        for number, task in enumerate(self.tasks[: self.made]):
            act = task.ready()
            if act and act.is_job() == are_jobs and self.has_part(task, act):
                return number, task, act
        return None

    def line(self):
        self.shown.append(f"line {self.lined} {self.tasks[self.lined].outcome}")
        self.lined += 1

    def call(self, number, task, act):
        self.shown.append(f"{number} {act.words()}")
        came = self.take(f"{number} {act.words()}", "fine")
        if (came == "short" and act.name != "Read") or (came.startswith("blocked") and act not in (ASSEMBLE, RENAME)):
            raise Stuck
        task.came[act] = FINE if came == "fine" else FAILED
        if act.name == "Read" and came == "fine":
            task.pieces_here.add(act.number)
        if act.name == "Place":
            task.pieces_here.discard(act.number)
        if came != "fine" and act not in (STAMP, DROP_TEMP):
            causes = {"short": "Changed", "memory": "Memory", "fault": f"Files {FILE_CALLS[act.name]}"}
            task.fail(causes.get(came) or f"Blocked {came.removeprefix('blocked/')}")

    def give(self, number, task, act, lane):
        self.shown.append(f"{number} {act.words()} to {lane}")
        self.lanes[lane].append(Job(number, act, task.came.get(act) != KEPT and act != ABORT))
        self.entries += 1
        task.came[act] = OUT
        if act.name == "Get":
            task.pieces_here.add(act.number)

    def wait(self):
        """The oldest job of a lane comes back, of the first that has one, unless the row names another."""
        self.shown.append("wait")
        first = next(lane for lane, jobs in enumerate(self.lanes) if jobs)
        lane = int(self.take("back", first))
        if lane >= len(self.lanes) or not self.lanes[lane]:
            raise Stuck
        job = self.lanes[lane].pop(0)
        came = self.take(f"{job.number_of_task} {job.act.words()}", "ok")
        if came.startswith("cut") and not job.has_cell:
            raise Stuck
        self.entries += 1
        self.come_back(job, came)

    def come_back(self, job, came):
        task, act = self.tasks[job.number_of_task], job.act
        back = way_back(task, act, came)
        if act == task.deciding_act():
            task.may_have_been_done |= " " in came or came.startswith("lost")
            task.cause_of_last = back.cause if back.attempts else task.cause_of_last
        was_stopped = task.failure or task.reason
        if job.has_cell and back.is_tried_again and back.attempts < ATTEMPTS:
            task.came[act] = FAILED if was_stopped else KEPT
            if was_stopped:
                task.pieces_here.discard(act.number)
            return
        if act.name in ("Put", "Part") or act.name == "Get" and (back.cause or was_stopped):
            task.pieces_here.discard(act.number)
        task.came[act] = FAILED if back.cause else FINE
        if back.cause:
            task.fail(back.cause)

    def make(self):
        self.shown.append(f"make {self.made}")
        self.made += 1

    def can_make(self):
        going = sum(task.outcome is None for task in self.tasks[: self.made])
        return self.made < len(self.tasks) and going < self.queue

    def move(self):
        """Does the next move. False where it is the end."""
        lane = min(range(len(self.lanes)), key=lambda lane: len(self.lanes[lane]))
        is_free = len(self.lanes[lane]) < self.depth
        if self.lined < self.made and self.tasks[self.lined].outcome:
            self.line()
        elif call := self.next_act(are_jobs=False):
            self.call(*call)
        elif is_free and (job := self.next_act(are_jobs=True)):
            self.give(*job, lane)
        elif self.can_make():
            self.make()
        elif any(self.lanes):
            self.wait()
        else:
            self.shown.append("end")
            return False
        return True

    def settle(self):
        for task in self.tasks[: self.made]:
            task.settle()

    def moves(self):
        goes_on = True
        while goes_on:
            reason = self.take(f"cancel {len(self.shown)}")
            if reason:
                for task in self.tasks:
                    task.cancel(reason)
                self.settle()
            goes_on = self.move()
            self.settle()

    def answer(self):
        try:
            self.moves()
        except Stuck:
            return " | ".join([*self.shown, "stuck"])
        return " | ".join([*self.shown, f"{self.entries} entries, {len(self.tasks)} outcomes"])


def tasks_named(words):
    """The tasks of `COUNT times move KIND SIZE`, of which only kind and size have to stand there."""
    count, text = words.split(" times ") if " times " in words else (1, words)
    kind, size = text.removeprefix("move ").split()
    return [Task(kind, text.startswith("move "), int(size)) for _ in range(int(count))]


def answer_of(row):
    tasks, settings, script = row.split(" | ")
    made = [task for words in tasks.split(", ") for task in tasks_named(words)]
    lanes, queue, buffers = map(int, settings.split())
    is_allowed = 1 <= lanes <= 1000 and 1 <= queue <= 100_000 and 1 <= buffers <= 64
    if not is_allowed or any(task.size > MAX_OBJECT for task in made):
        return "no run"
    return Run(made, lanes, queue, buffers, [saying for saying in script.split(", ") if saying]).answer()


# ---- rows at random

KINDS = ("upload", "download", "copy", "remove-object", "remove-file")
REASONS = ("OutputFailed", "ListingEnded", "OutOfMemory")
JOBS_COME = ("lost", "lost lost", "lost lost lost", "lost ok", "lost refused/503/SlowDown", "refused/503/SlowDown ok",
             "refused/403/AccessDenied", "lost refused/403/AccessDenied", "refused/412/PreconditionFailed",
             "lost/Memory", "lost lost lost/NotHttp", "memory", "lost memory", "cut/OutputFailed")
CALLS_COME = ("fault", "memory")


def acts_of(words):
    """The acts of a task of which each is fine, and those of one that stops."""
    task = tasks_named(words)[0]
    acts = [ABORT, DROP_TEMP]
    while act := task.ready():
        task.came[act] = FINE
        acts.append(act)
    return acts


def drawn_saying(rng, tasks, lanes):
    sort = rng.random()
    if sort < 0.1:
        return f"back {rng.randrange(lanes)}"
    if sort < 0.25:
        return f"cancel {rng.randrange(20)} {rng.choice(REASONS)}"
    number = rng.randrange(len(tasks))
    act = rng.choice(acts_of(tasks[number]))
    came = rng.choice(JOBS_COME if act.is_job() else CALLS_COME)
    return f"{number} {act.words()} {came}"


def drawn_row(rng):
    tasks = [
        f"{rng.choice(('', 'move '))}{rng.choice(KINDS)} {rng.choice((0, 3, 7, 8, 9, 12, 17, 100))}"
        for _ in range(rng.choice((1, 2, 3, 4)))
    ]
    lanes = rng.choice((1, 2, 3))
    settings = f"{lanes} {rng.choice((1, 2, 4, 9))} {rng.choice((1, 2, 4))}"
    sayings = [drawn_saying(rng, tasks, lanes) for _ in range(rng.choice((1, 2, 4, 6)))]
    return f"{', '.join(tasks)} | {settings} | {', '.join(sayings)}"


def main():
    if sys.argv[1:] == ["drawn"]:
        rng = random.Random(20)
        for _ in range(DRAWN):
            print(drawn_row(rng))
    else:
        for line in sys.stdin:
            row = line.rstrip("\n")
            print(f"{row} => {answer_of(row)}")


main()
