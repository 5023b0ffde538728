#!/usr/bin/env python3
"""Prints the commands of a load as lines, written down apart from the program: `run STORE` on these lines does what `load NUMBER BLOCKS STORE` does.

    tools/load_lines.py NUMBER BLOCKS

A block has five commands. It is about an hour, one of the 720 from 2024-01-01 on, that is drawn from the number; a task of its own
appends an id to that hour, and in each fourth block one replaces the hour.
"""

import datetime
import itertools
import json
import sys

HOURS = 720
FIRST_HOUR, FIRST_MOMENT = datetime.datetime(2024, 1, 1), datetime.datetime(2025, 1, 1)
EPOCH = datetime.datetime(1970, 1, 1)
COMMANDS = 5


def text(moment):
    return f"{moment:%Y-%m-%dT%H:%M:%S}.000Z"


def line(**words):
    return json.dumps(words, separators=(",", ":")).encode() + b"\n"


def hours_drawn(number):
    """The hour of each block, as its number among the hours."""
    while True:
        number = (number * 6364136223846793005 + 1442695040888963407) % 2**64
        yield number // 2**33 % HOURS


def load_lines(number, blocks):
    """The lines of a load, block by block."""
    newest = {}
    for block, hour in enumerate(itertools.islice(hours_drawn(number), blocks)):
        task, now = f"load-{block}", FIRST_MOMENT + datetime.timedelta(seconds=block)
        start = FIRST_HOUR + datetime.timedelta(hours=hour)
        span = f"{text(start)}/{text(start + datetime.timedelta(hours=1))}"

        def segment(version, part, place="_".join(("load", *span.split("/")))):
            return f"{place}_{text(version)}{f'_{part}' if part else ''}"

        managed, ended = line(do="manage", now=text(now)), line(do="end", task=task, status="SUCCESS")
        if block % 4 == 3:
            wants = [{"type": "REPLACE", "span": span}]
            yield line(do="submit", task=task, group=task, source="load", kind="batch", locks=wants) + managed
            yield line(do="to_replace", task=task, span=span) + line(do="replace", task=task, spans=[span], ids=[segment(now, 0)]) + ended
            newest[hour] = now, 1
        else:
            version, part = newest.get(hour, (EPOCH, 0))
            yield line(do="submit", task=task, group=task, source="load", kind="realtime") + managed
            yield line(do="allocate", task=task, type="APPEND", sequence=task, at=text(start), granularity="HOUR", now=text(now))
            yield line(do="append", task=task, ids=[segment(version, part)]) + ended
            newest[hour] = version, part + 1


if __name__ == "__main__":
    for lines in load_lines(int(sys.argv[1]), int(sys.argv[2])):
        sys.stdout.buffer.write(lines)
