"""Reads a store's log by docs/STORE.md alone: which lines its records are, and where it is no log."""

from datetime import datetime, timedelta, timezone

HEADER = 26
NAME = b"OVERLORD"
FIRST, LAST = -62167219200000, 253402300799999
LOCKS = (None, "EXCLUSIVE", "SHARED", "APPEND", "REPLACE")
KINDS = (None, "realtime", "batch", "compaction", "other")
STATUSES = (None, None, None, "SUCCESS", "FAILED")
GRANULARITIES = (None, "MINUTE", "FIFTEEN_MINUTE", "HOUR", "DAY", "WEEK", "MONTH", "YEAR")
EPOCH = datetime(1970, 1, 1, tzinfo=timezone.utc)
FOUR_CENTURIES = timedelta(days=146097)


class NoRecord(ValueError):
    """These bytes are no command."""


def instant(value):
    if not FIRST <= value <= LAST:
        raise NoRecord("no instant")
    # the years 0 and 400 have the same days
    moment = timedelta(milliseconds=value) + EPOCH if value >= -62135596800000 else EPOCH + FOUR_CENTURIES + timedelta(milliseconds=value)
    year = moment.year if value >= -62135596800000 else moment.year - 400
    return f"{year:04}-{moment:%m-%dT%H:%M:%S}.{moment.microsecond // 1000:03}Z"


class Body:
    """The bytes of a record that aren't read yet."""

    def __init__(self, data):
        self.data, self.at = data, 0

    def is_empty(self):
        return self.at == len(self.data)

    def take(self, count):
        taken = self.data[self.at : self.at + count]
        if len(taken) < count:
            raise NoRecord("cut off")
        self.at += count
        return taken

    def whole(self, count, is_signed=False):
        return int.from_bytes(self.take(count), "big", signed=is_signed)

    def u32(self):
        return self.whole(4)

    def u64(self):
        return self.whole(8)

    def moment(self):
        value = self.whole(8, True)
        instant(value)
        return value

    def full(self):
        return instant(self.moment())

    def duration(self):
        seconds, rest = divmod(self.whole(8, True), 1000)
        if rest or seconds < 1:
            raise NoRecord("no duration")
        hours = min(seconds // 3600, 9999999)
        minutes = min((seconds - 3600 * hours) // 60, 9999999)
        seconds -= 3600 * hours + 60 * minutes
        return f"PT{hours}H{minutes}M{seconds}S"

    def text(self):
        try:
            return self.take(self.whole(1)).decode()
        except UnicodeDecodeError as error:
            raise NoRecord("no text") from error

    def one_of(self, words):
        code = self.whole(1)
        if code >= len(words) or words[code] is None:
            raise NoRecord("no such code")
        return words[code]

    def span(self):
        return f"{self.full()}/{self.full()}"

    def id(self):
        words = [self.text(), self.full(), self.full(), self.full()]
        part = self.u32()
        return "_".join(words + [str(part)] * (part > 0))

    def many(self, item):
        return [item() for _ in range(self.whole(2))]

    def offset(self):
        return {"partition": self.u32(), "offset": self.u64()}

    def part(self):
        return {"partition": self.u32(), "start": self.u64(), "end": self.u64()}

    def ranges(self):
        return {"stream": self.text(), "parts": self.many(self.part)}

    def want(self):
        return {"type": self.one_of(LOCKS), "span": self.span()}

    def optional(self, key, item):
        has = self.whole(1)
        if has > 1:
            raise NoRecord("no option")
        return {key: item()} if has else {}

    def over(self, do, has_tombstones):
        line = {"do": do, "task": self.text(), "spans": self.many(self.span), "ids": self.many(self.id)} | self.optional("ranges", self.ranges)
        return line | ({"tombstones": self.many(self.id)} if has_tombstones else {})

    def command(self):
        tag = self.whole(1)
        if tag == 1:
            line = {"do": "submit", "task": self.text(), "group": self.text(), "source": self.text(), "kind": self.one_of(KINDS)}
            return line | {"priority": self.u32(), "locks": self.many(self.want)}
        if tag == 2:
            return {"do": "manage", "now": self.moment()}
        if tag == 3:
            return {"do": "lock", "task": self.text(), "type": self.one_of(LOCKS), "span": self.span(), "now": self.moment()}
        if tag == 4:
            return {"do": "unlock", "task": self.text(), "lock": self.u64()}
        if tag == 5:
            line = {"do": "allocate", "task": self.text(), "type": self.one_of(LOCKS), "sequence": self.text()} | self.optional("previous", self.id)
            return line | {"at": self.moment(), "granularity": self.one_of(GRANULARITIES), "now": self.moment()}
        if tag == 6:
            return {"do": "append", "task": self.text(), "ids": self.many(self.id)} | self.optional("ranges", self.ranges)
        if tag in (7, 8, 16, 17):
            return self.over("insert" if tag in (7, 16) else "replace", tag > 8)
        if tag == 9:
            return {"do": "end", "task": self.text(), "status": self.one_of(STATUSES)}
        if tag == 10:
            return {"do": "drop", "source": self.text(), "span": self.span()}
        if tag == 11:
            return {"do": "reset", "source": self.text(), "stream": self.text(), "offsets": self.many(self.offset)}
        if tag == 12:
            line = {"do": "supervise", "source": self.text(), "stream": self.text(), "partitions": self.u32(), "taskCount": self.u32(), "replicas": self.u32()}
            return line | {"taskDuration": self.duration(), "completionTimeout": self.duration()}
        if tag == 13:
            return {"do": "tick", "now": self.moment()}
        if tag in (14, 15):
            return {"do": "paused" if tag == 14 else "checkpoint", "task": self.text(), "offsets": self.many(self.offset)}
        raise NoRecord("no such tag")


def commands_of(body):
    """The commands of a record's body, or None."""
    rest, commands = Body(body), []
    try:
        while not commands or not rest.is_empty():
            commands.append(rest.command())
    except NoRecord:
        return None
    return commands


def header_fault(log):
    """Where the header is wrong, or None. 'absent' where there is no log."""
    is_named = log[1:9] == NAME
    if len(log) <= 1 or log[0] == 0 or (log[0] != 1 and is_named):
        return "absent"
    if log[0] != 1:
        return 0
    if not is_named:
        return 1
    if log[9:10] != b"\1":
        return 9
    return 18 if len(log) <= HEADER or log[18:26] != bytes(8) else None


def records_of(log):
    """The gates of a log's records and their bodies, and the gate at which it is no log, or None."""
    gates, bodies, at = [], [], HEADER
    while log[at] == 1:
        length = int.from_bytes(log[at + 1 : at + 5], "big")
        behind = at + 5 + length
        if length == 0 or behind >= len(log):
            return gates, bodies, at
        gates.append(at)
        bodies.append(log[at + 5 : behind])
        at = behind
    return gates, bodies, None
