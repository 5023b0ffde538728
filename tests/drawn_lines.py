"""Draws lines of all seventeen commands by what the replies told, so that most of them do something, breaks lines in ways that are drawn too, and knows of a run what any prefix of its lines leaves."""

import datetime
import json
import os
import subprocess

from harness import read

SOURCES = ("w", "v")
STREAM = "t"
KINDS = ("realtime", "batch", "compaction", "other")
LOCKS = ("EXCLUSIVE", "SHARED", "APPEND", "REPLACE")
GRANULARITIES = ("YEAR", "MONTH", "WEEK", "DAY", "HOUR", "FIFTEEN_MINUTE", "MINUTE")
SHOWS = ("tasks", "locks", "timeline", "contents", "offsets", "sequences")
FIRST_DAY = datetime.datetime(2024, 3, 1)
FIRST_NOW = datetime.datetime(2024, 4, 1)
HOURS = 96
# how many more lines are drawn where some command wasn't done yet
MOST_MORE = 4000
EMPTY = 27  # bytes of a store without records


def text(value):
    return json.dumps(value, separators=(",", ":"), ensure_ascii=False).encode() + b"\n"


def instant(moment):
    return moment.strftime("%Y-%m-%dT%H:%M:%S.") + f"{moment.microsecond // 1000:03}Z"


def hour(number):
    return instant(FIRST_DAY + datetime.timedelta(hours=number))


def ids_of(source, span, version, count):
    first = f"{source}_{span.replace('/', '_')}_{version}"
    return [f"{first}_{part}" if part else first for part in range(count)]


class Drawer:
    """Draws one command after another. What it is told of the replies it remembers, as far as it helps to draw."""

    def __init__(self, chance):
        self.chance = chance
        self.number, self.minutes = 0, 0
        # tasks that run or wait with their source, locks by number with their task and reply, ids that wait with their task
        self.tasks, self.locks, self.ids, self.sequences, self.published = {}, {}, {}, {}, []

    def now(self):
        self.minutes += self.chance.choice((0, 1, 1, 5, 20))
        return instant(FIRST_NOW + datetime.timedelta(minutes=self.minutes))

    def span(self):
        start = self.chance.randrange(HOURS)
        day = start // 24 * 24
        return "/".join(map(hour, self.chance.choice(((start, start + 1), (start, start + 1), (day, day + 24), (day, day + 48)))))

    def task(self):
        return self.chance.choice(list(self.tasks)) if self.tasks and self.chance.random() < 0.98 else "nobody"

    def submit(self):
        self.number += 1
        line = {"do": "submit", "task": f"k{self.number}", "source": self.chance.choice(SOURCES), "kind": self.chance.choice(KINDS)}
        if self.chance.random() < 0.4:
            line["group"] = self.chance.choice("gh")
        if self.chance.random() < 0.3:
            line["locks"] = [{"type": self.chance.choice(LOCKS), "span": self.span()} for _ in range(self.chance.randrange(3))]
        return line

    def manage(self):
        return {"do": "manage", "now": self.now()}

    def lock(self):
        return {"do": "lock", "task": self.task(), "type": self.chance.choice(LOCKS), "span": self.span(), "now": self.now()}

    def unlock(self):
        number = self.chance.choice(list(self.locks)) if self.locks else 1
        return {"do": "unlock", "task": self.locks[number][0] if self.locks else self.task(), "lock": number}

    def allocate(self):
        line = {"do": "allocate", "task": self.task(), "type": self.chance.choice(LOCKS[:3] + LOCKS[2:3] * 4), "sequence": f"s{self.chance.randrange(1 + self.number)}"}
        if self.ids and self.chance.random() < 0.2:
            line["previous"] = self.chance.choice(list(self.ids))
        return line | {"at": hour(self.chance.randrange(HOURS)), "granularity": self.chance.choice(GRANULARITIES[2:]), "now": self.now()}

    def ranges(self):
        parts = [{"partition": 10 + number, "start": 0, "end": self.chance.choice((0, 0, 3))} for number in self.chance.sample(range(9), self.chance.choice((1, 2)))]
        return {"stream": self.chance.choice(("u", "u", STREAM)), "parts": parts}

    def append(self):
        if self.published and self.chance.random() < 0.1:
            return self.chance.choice(self.published)
        by_task = {}
        for found, task in self.ids.items():
            by_task.setdefault(task, []).append(found)
        task = self.chance.choice(list(by_task)) if by_task else self.task()
        ids = by_task.get(task, [])
        line = {"do": "append", "task": task, "ids": self.chance.sample(ids, min(len(ids), self.chance.choice((1, 2, 3))))}
        return line | {"ranges": self.ranges()} if not line["ids"] or self.chance.random() < 0.1 else line

    def over(self, do, kind):
        held = [(task, told) for task, told in self.locks.values() if told["type"] == kind]
        if not held:
            return self.lock() | {"type": kind}
        task, told = self.chance.choice(held)
        source, span, version = self.tasks.get(task, "w"), told["span"], told["version"]
        ids = ids_of(source, span, version, self.chance.choice((0, 1, 2)))
        line = {"do": do, "task": task, "spans": [span], "ids": ids}
        if not ids or self.chance.random() < 0.1:
            line["tombstones"] = ids_of(source, span, version, 1)
        return line

    def insert(self):
        return self.over("insert", "EXCLUSIVE")

    def replace(self):
        return self.over("replace", "REPLACE")

    def drop(self):
        return {"do": "drop", "source": self.chance.choice(SOURCES), "span": self.span()}

    def reset(self):
        offsets = [{"partition": number, "offset": self.chance.randrange(9)} for number in self.chance.sample(range(4), self.chance.randrange(3))]
        return {"do": "reset", "source": self.chance.choice(SOURCES), "stream": self.chance.choice((STREAM, "u", "u", "u")), "offsets": offsets}

    def end(self):
        return {"do": "end", "task": self.task(), "status": self.chance.choice(("SUCCESS", "FAILED"))}

    def to_replace(self):
        held = [(task, told["span"]) for task, told in self.locks.values() if told["type"] == "REPLACE"]
        task, span = self.chance.choice(held) if held else (self.task(), self.span())
        return {"do": "to_replace", "task": task, "span": span}

    def show(self):
        what = self.chance.choice(SHOWS + SHOWS[-1:] * 6)
        return {"do": "show", "what": what} | ({} if what in SHOWS[:2] else {"source": self.chance.choice(SOURCES)})

    def supervise(self):
        line = {"do": "supervise", "source": self.chance.choice(SOURCES), "stream": STREAM, "partitions": self.chance.randint(1, 4)}
        return line | {"taskCount": self.chance.randint(1, 2), "replicas": self.chance.randint(1, 2), "taskDuration": "PT30M", "completionTimeout": "PT2H"}

    def tick(self):
        return {"do": "tick", "now": self.now()}

    def report(self, do, *states):
        told = [it for it in self.sequences.values() if it["state"] in states]
        if not told:
            return self.tick()
        sequence = self.chance.choice(told)
        mine = [it for it in self.tasks if it.rpartition(":")[0] == sequence["name"]] or [f"{sequence['name']}:0"]
        return {"do": do, "task": self.chance.choice(mine), "offsets": [{"partition": it["partition"], "offset": it["offset"] + self.chance.randrange(3)} for it in sequence["starts"]]}

    def paused(self):
        return self.report("paused", *self.chance.choice((("PAUSED",), ("READING", "PAUSED"))))

    def checkpoint(self):
        return self.report("checkpoint", "READING", "PAUSED")

    def publish(self):
        """What a replica of a closed sequence read."""
        told = [it for it in self.sequences.values() if it["state"] == "CLOSED"]
        if not told:
            return self.checkpoint()
        sequence = self.chance.choice(told[:2])
        ends = {it["partition"]: it["offset"] for it in sequence["ends"]}
        parts = [{"partition": it["partition"], "start": it["offset"], "end": ends[it["partition"]]} for it in sequence["starts"]]
        return {"do": "append", "task": f"{sequence['name']}:0", "ids": [], "ranges": {"stream": STREAM, "parts": parts}}

    WEIGHTS = {submit: 5, manage: 4, lock: 9, unlock: 4, allocate: 12, append: 9, insert: 6, replace: 6, drop: 3, reset: 2, end: 3}
    WEIGHTS |= {to_replace: 3, show: 6, supervise: 1, tick: 3, paused: 2, checkpoint: 5, publish: 4}

    def draw(self):
        if self.number < 4:
            return self.submit()
        return self.chance.choices(list(self.WEIGHTS), self.WEIGHTS.values())[0](self)

    def heed(self, line, reply):
        """Remembers what a reply told."""
        for number in reply.get("revoked", ()):
            self.locks.pop(number, None)
        what = reply.get("ok")
        if what == "submit":
            self.tasks[line["task"]] = line["source"]
        elif what == "manage":
            self.tasks |= {task: task.split(":")[1] for task in reply["running"] if task.startswith("sup:")}
        elif what == "lock":
            self.locks[reply["lock"]] = line["task"], reply | {"type": line["type"]}
        elif what == "unlock":
            self.locks.pop(line["lock"], None)
        elif what == "allocate":
            self.ids[reply["id"]] = line["task"]
        elif what in ("append", "insert", "replace"):
            self.published.append(line)
            for found in line["ids"]:
                self.ids.pop(found, None)
        elif what == "end":
            self.tasks.pop(line["task"], None)
            self.ids = {found: task for found, task in self.ids.items() if task != line["task"]}
        elif what == "sequences":
            self.sequences |= {it["name"]: it for it in reply["sequences"]}
        elif what == "tick":
            self.learn(reply["paused"], {"state": "PAUSED"})
            self.learn(reply["abandoned"], {"state": "ABANDONED"})
        elif what in ("paused", "checkpoint"):
            self.learn([line["task"].rpartition(":")[0]], {"state": reply["state"], "ends": reply["ends"]})

    def learn(self, names, told):
        for name in names:
            if name in self.sequences:
                self.sequences[name] |= told


class Dialogue:
    """A run of the program that is asked line by line."""

    def __init__(self, suite, store):
        self.program = suite.start("run", store)

    def ask(self, *lines):
        self.program.stdin.write(b"".join(lines))
        self.program.stdin.flush()
        return [self.program.stdout.readline() for _ in lines]

    def end(self):
        _, complained = self.program.communicate()
        return self.program.returncode, complained


QUESTIONS = [text({"do": "show", "what": what}) for what in SHOWS[:2]]
QUESTIONS += [text({"do": "show", "what": what, "source": source}) for what in SHOWS[2:] for source in SOURCES]


def log_of(path):
    """The bytes of a store's log up to its last gate and with it; what stands behind counts for nothing."""
    log, at = read(path), EMPTY - 1
    while log[at : at + 1] == b"\1":
        at += 5 + int.from_bytes(log[at + 1 : at + 5], "big")
    return log[:at] + b"\0"


class Known:
    """A run of lines: the reply to each, and for each prefix of them what the log and the shows are then. The first of these are those of no lines."""

    def __init__(self, suite, lines, heed=None):
        """Takes each line once the one before it is heeded, so that they may be drawn by the replies."""
        self.suite = suite
        store = f"{suite.folder()}/S"
        dialogue = Dialogue(suite, store)
        self.books = [dialogue.ask(*QUESTIONS)]
        self.lines, self.replies, self.lengths = [], [], [os.path.getsize(f"{store}.0")]
        for line in lines:
            reply = dialogue.ask(line)[0]
            if heed:
                heed(json.loads(line), json.loads(reply))
            self.lines.append(line)
            self.replies.append(reply)
            self.lengths.append(os.path.getsize(f"{store}.0"))
            self.books.append(dialogue.ask(*QUESTIONS))
        self.ended = dialogue.end()
        self.log = read(f"{store}.0")

    def said(self, done, said):
        """How many lines behind these are answered by what was said, a reply that is cut off among them; None where it isn't what they are answered."""
        wanted = self.replies[done:]
        count = said.count(b"\n")
        rest = said[said.rfind(b"\n") + 1 :]
        is_well = said == b"".join(wanted[:count]) + rest and b"".join(wanted[count : count + 1]).startswith(rest)
        return count + (len(rest) > 0) if is_well else None

    def opened(self, store, least):
        """Opens a store that holds at least so many lines. Tells how many it holds (of those that can't be told apart the least), or what is wrong."""
        ended = self.suite.run("run", store, given=b"".join(QUESTIONS))
        if ended.status != 0:
            return None, f"it opens with {ended}"
        log = log_of(f"{store}.0")
        if self.log[: len(log) - 1] != log[:-1]:
            return None, f"its log of {len(log)} bytes is no first part of the one of {len(self.log)}"
        held = next((number for number in range(least, len(self.lengths)) if self.lengths[number] == len(log)), None)
        if held is None:
            return None, f"its log of {len(log)} bytes is of no prefix that holds the {least} lines that were answered"
        if ended.said != b"".join(self.books[held]):
            return None, f"it doesn't show the book of the first {held} lines"
        return held, None


def drawn(suite, chance, count):
    """What is known of so many drawn lines, and as many more as it takes to have each command done."""
    drawer = Drawer(chance)
    missing = {line.__name__ for line in Drawer.WEIGHTS} - {"publish", "show"}

    def lines():
        done = 0
        while done < count or (missing and done < count + MOST_MORE):
            done += 1
            yield text(drawer.draw())

    def heed(line, told):
        drawer.heed(line, told)
        missing.discard(told.get("ok"))

    known = Known(suite, lines(), heed)
    suite.case(f"{len(known.lines)} drawn lines, among them every command done", known.ended == (0, b"") and not missing, f"{known.ended}, none of {sorted(missing)}")
    return known


def run_to_its_end(words, given, seconds, how=None):
    """Starts a command on a file of lines, kills it after these seconds, and returns its status and what it said and complained."""
    with open(given, "rb") as lines:
        run = subprocess.Popen(words, stdin=lines, stdout=subprocess.PIPE, stderr=subprocess.PIPE, **(how or {}))
    try:
        said, complained = run.communicate(timeout=seconds)
    except subprocess.TimeoutExpired:
        run.kill()
        said, complained = run.communicate()
    return run.returncode, said, complained
