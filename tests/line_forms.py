"""Which lines are commands, by docs/COMMANDS.md alone: a second reader of lines, to hold the program's against."""

import json
import re
import sys
from datetime import datetime

if hasattr(sys, "set_int_max_str_digits"):
    sys.set_int_max_str_digits(0)

LONGEST = 1048576
DEEPEST = 127
NAME = re.compile(r"[A-Za-z0-9_.-]{1,200}", re.A)
NEW_TASK = re.compile(r"(?!sup:|compact:)[A-Za-z0-9_.:-]{1,200}", re.A)
INSTANT = re.compile(r"(\d{4})-(\d\d)-(\d\d)(?:T(\d\d):(\d\d)(?::(\d\d)(?:\.(\d{3}))?)?Z?)?", re.A)
FULL = re.compile(r"\d{4}-\d\d-\d\dT\d\d:\d\d:\d\d\.\d{3}Z", re.A)
ID = re.compile(rf"(.+)_({FULL.pattern})_({FULL.pattern})_({FULL.pattern})(?:_([1-9]\d*))?", re.A | re.S)
DURATION = re.compile(r"PT(?:(\d{1,7})H)?(?:(\d{1,7})M)?(?:(\d{1,7})S)?", re.A)
BRACKET = re.compile(rb"[\[\]{}]")
STRING = re.compile(rb'"(?:[^"\\]|\\.)*"', re.S)
FIRST, LAST = -62167219200000, 253402300799999
PARTITION, OFFSET, LOCK = 2**31 - 1, 2**63 - 1, 2**53 - 1
KINDS = ("realtime", "batch", "compaction", "other")
LOCKS = ("EXCLUSIVE", "SHARED", "APPEND", "REPLACE")
GRANULARITIES = ("YEAR", "MONTH", "WEEK", "DAY", "HOUR", "FIFTEEN_MINUTE", "MINUTE")


def whole(least, most):
    return lambda value: type(value) is int and least <= value <= most


def one_of(*texts):
    return lambda value: isinstance(value, str) and value in texts


def matches(pattern):
    return lambda value: isinstance(value, str) and pattern.fullmatch(value) is not None


def task(value):
    return isinstance(value, str) and 1 <= len(value.encode()) <= 255


def moment_of(value):
    """The parts of an instant, which compare as the instants do, or None."""
    found = INSTANT.fullmatch(value) if isinstance(value, str) else None
    if not found:
        return None
    year, *rest = (int(it or 0) for it in found.groups())
    try:
        # years 0 and 400 have the same days
        datetime(year or 400, *rest[:5])
    except ValueError:
        return None
    return year, *rest


def moment(value):
    return whole(FIRST, LAST)(value) or moment_of(value) is not None


def is_before(start, end):
    start, end = moment_of(start), moment_of(end)
    return start is not None and end is not None and start < end


def span(value):
    return isinstance(value, str) and value.count("/") == 1 and is_before(*value.split("/"))


def segment(value):
    found = ID.fullmatch(value) if isinstance(value, str) else None
    if not found:
        return False
    source, start, end, version, part = found.groups()
    return NAME.fullmatch(source) is not None and is_before(start, end) and moment_of(version) is not None and int(part or 0) < 2**32


def duration(value):
    found = DURATION.fullmatch(value) if isinstance(value, str) else None
    return found is not None and any(found.groups()) and sum(int(it or 0) for it in found.groups()) > 0


def many(least, most, item, key=None):
    """A list of so many items, and where they have a key none with the key of another."""

    def is_list(value):
        if not (isinstance(value, list) and least <= len(value) <= most and all(map(item, value))):
            return False
        return key is None or len({key(it) for it in value}) == len(value)

    return is_list


def keys(needed, optional=()):
    """An object of these keys and no others."""
    needed, optional = dict(needed), dict(optional)

    def is_object(value):
        if not isinstance(value, dict) or not needed.keys() <= value.keys() <= needed.keys() | optional.keys():
            return False
        return all((needed | optional)[name](it) for name, it in value.items())

    return is_object


def partition(value):
    return value["partition"]


name, new_task = matches(NAME), matches(NEW_TASK)
ids = many(0, 4096, segment, key=lambda it: it)
spans = many(1, 4096, span)
offset = keys({"partition": whole(0, PARTITION), "offset": whole(0, OFFSET)})
part = keys({"partition": whole(0, PARTITION), "start": whole(0, OFFSET), "end": whole(0, OFFSET)})
ranges = keys({"stream": name, "parts": many(1, 4096, part, key=partition)})
reports = {"task": task, "offsets": many(1, 4096, offset, key=partition)}
over = keys({"task": task, "spans": spans, "ids": ids}, {"tombstones": ids, "ranges": ranges})
FORMS = {
    "submit": keys(
        {"task": new_task, "source": name, "kind": one_of(*KINDS)},
        {"group": new_task, "priority": whole(0, 1000000), "locks": many(0, 64, keys({"type": one_of(*LOCKS), "span": span}))},
    ),
    "manage": keys({"now": moment}),
    "lock": keys({"task": task, "type": one_of(*LOCKS), "span": span, "now": moment}),
    "unlock": keys({"task": task, "lock": whole(0, LOCK)}),
    "allocate": keys(
        {"task": task, "type": one_of(*LOCKS[:3]), "sequence": name, "at": moment, "granularity": one_of(*GRANULARITIES), "now": moment},
        {"previous": segment},
    ),
    "append": lambda line: keys({"task": task, "ids": ids}, {"ranges": ranges})(line) and bool(line["ids"] or "ranges" in line),
    "insert": lambda line: over(line) and bool(line["ids"] or line.get("tombstones")),
    "replace": lambda line: over(line) and bool(line["ids"] or line.get("tombstones")),
    "drop": keys({"source": name, "span": span}),
    "to_replace": keys({"task": task, "span": span}),
    "reset": keys({"source": name, "stream": name, "offsets": many(0, 4096, offset, key=partition)}),
    "end": keys({"task": task, "status": one_of("SUCCESS", "FAILED")}),
    "supervise": keys(
        {"source": name, "stream": name, "partitions": whole(1, 4096)},
        {"taskCount": whole(1, 4096), "replicas": whole(1, 16), "taskDuration": duration, "completionTimeout": duration},
    ),
    "tick": keys({"now": moment}),
    "paused": keys(reports),
    "checkpoint": keys(reports),
    "show": lambda line: (
        keys({"what": one_of("tasks", "locks")})(line) or keys({"what": one_of("timeline", "contents", "offsets", "sequences"), "source": name})(line)
    ),
}


def is_too_deep(line):
    """Whether objects and lists of a line are nested deeper than they may be."""
    depth = 0
    for found in BRACKET.finditer(STRING.sub(b"", line)):
        depth += 1 if found.group() in b"[{" else -1
        if depth > DEEPEST:
            return True
    return False


def has_only_text(value):
    """Stops at half a pair of surrogates. The objects within have been looked at."""
    if isinstance(value, str):
        value.encode()
    elif isinstance(value, list):
        for it in value:
            has_only_text(it)


def pairs(found):
    """Of a key that stands twice the last value counts; what counts no more has to be text all the same."""
    for key, value in found:
        has_only_text(key)
        has_only_text(value)
    return dict(found)


def number(text):
    """A number with a sign before 0 is no whole one, and one that no double reaches is none."""
    value = int(text)
    float(value)
    return float(value) if text == "-0" else value


def fraction(text):
    value = float(text)
    if value in (float("inf"), float("-inf")):
        raise ValueError(text)
    return value


def no_constant(text):
    raise ValueError(text)


def command_of(line):
    """The command that a line is, or None."""
    if is_too_deep(line):
        return None
    try:
        read = json.loads(line.decode(), object_pairs_hook=pairs, parse_int=number, parse_float=fraction, parse_constant=no_constant)
        has_only_text(read)
    except (ValueError, OverflowError, RecursionError):
        return None
    if not isinstance(read, dict) or not isinstance(read.get("do"), str) or read["do"] not in FORMS:
        return None
    rest = {key: value for key, value in read.items() if key != "do"}
    return read if FORMS[read["do"]](rest) else None
