"""What the tests of the built program share: counting, a folder of their own, and runs of the program."""

import argparse
import glob
import json
import os
import shutil
import subprocess
import sys
import tempfile

TOP = os.path.dirname(os.path.dirname(os.path.abspath(__file__)))
SECONDS = 60

LINES = {
    2: "overlord: usage",
    3: "overlord: store fault",
    5: "overlord: input fault",
    6: "overlord: output fault",
    7: "overlord: no memory",
    9: "overlord: input too long",
}


def reset(offset):
    """A command that each store takes, and that adds one record."""
    offsets = [{"partition": 0, "offset": offset}]
    line = {"do": "reset", "source": "w", "stream": "t", "offsets": offsets}
    return json.dumps(line, separators=(",", ":")).encode() + b"\n"


def committed(number):
    """The reply to the command that became the record of this number."""
    return b'{"commit":%d,"ok":"reset"}\n' % number


class Ended:
    """How a run ended."""

    def __init__(self, status, said, complained):
        self.status, self.said, self.complained = status, said, complained

    def __repr__(self):
        return f"status {self.status}, said {self.said!r}, complained {self.complained!r}"


def ended(words, how):
    """Runs a command to its end, or kills it after a minute."""
    try:
        ran = subprocess.run(words, timeout=SECONDS, check=False, **how)
    except subprocess.TimeoutExpired as late:
        return Ended(f"none after {SECONDS} seconds", late.stdout or b"", late.stderr or b"")
    return Ended(ran.returncode, ran.stdout or b"", ran.stderr or b"")


class Suite:
    """Counts the cases of one file, each in a folder of its own."""

    def __init__(self, what, more=(), in_memory=False):
        parser = argparse.ArgumentParser(description=what)
        parser.add_argument("program", nargs="?", default=f"{TOP}/overlord", help="the program to test (the script overlord at the top)")
        for words, how in more:
            parser.add_argument(*words, **how)
        self.given = parser.parse_args()
        self.program = os.path.abspath(self.given.program)
        self.passed, self.failed = 0, 0
        # a folder in memory, where there is one, is for tests of what is answered alone: a sync takes no time there
        in_memory = in_memory and "TMPDIR" not in os.environ and os.access("/dev/shm", os.W_OK)
        self.room = tempfile.mkdtemp(prefix="overlord-test-", dir="/dev/shm" if in_memory else None)
        # other users run the program in some cases
        os.chmod(self.room, 0o755)
        self.cases = 0
        # the script builds the program at its first start, and no case is to wait for that
        subprocess.run([self.program], stdin=subprocess.DEVNULL, stdout=subprocess.DEVNULL, stderr=subprocess.DEVNULL, check=False)
        # what the script starts, for cases that watch or kill the program itself
        built = f"{os.path.dirname(os.path.realpath(self.program))}/out/overlord"
        self.built = built if self.program.endswith("/overlord") and os.path.isfile(built) else self.program

    def folder(self):
        self.cases += 1
        made = f"{self.room}/{self.cases}"
        os.mkdir(made)
        os.chmod(made, 0o777)
        return made

    def case(self, what, is_well, but=""):
        """Counts one case and prints it."""
        if is_well:
            self.passed += 1
            print(f"ok      {what}", flush=True)
        else:
            self.failed += 1
            print(f"FAILED  {what}: {but}", flush=True)
        return is_well

    def part(self, function, *given):
        """Runs a part of the cases. What it stops at is a failed case, and the other parts go on."""
        try:
            function(*given)
        except (OSError, ValueError, subprocess.SubprocessError) as error:
            line = error.__traceback__.tb_next.tb_lineno if error.__traceback__.tb_next else 0
            self.case(f"{function.__name__} goes on to its end", False, f"it stopped at line {line}: {error!r}")

    def skip(self, what, why):
        print(f"skipped {what}: {why}", flush=True)

    def run(self, *words, given=b"", before=(), **how):
        """Runs the program to its end, with these bytes as its input."""
        if "stdin" not in how:
            how["input"] = given
        how.setdefault("stdout", subprocess.PIPE)
        how.setdefault("stderr", subprocess.PIPE)
        return ended([*before, self.program, *words], how)

    def nobody(self):
        """The words that start a command as a user whom modes hold back: none where that is this one, None where there is no way."""
        if os.geteuid():
            return []
        words = ["setpriv", "--reuid=65534", "--regid=65534", "--clear-groups", "--no-new-privs"]
        if not shutil.which("setpriv") or subprocess.run([*words, self.program], stdin=subprocess.DEVNULL, capture_output=True, check=False).returncode != 2:
            return None
        return words

    def shell(self, command, *words):
        """Runs a line of the shell in which "$@" is the program with these words, for streams that are closed."""
        return ended(["sh", "-c", command, "sh", self.program, *words], {"stdin": subprocess.DEVNULL, "capture_output": True})

    def start(self, *words, before=(), **how):
        """Starts the program with pipes for its streams."""
        how.setdefault("stdin", subprocess.PIPE)
        how.setdefault("stdout", subprocess.PIPE)
        how.setdefault("stderr", subprocess.PIPE)
        return subprocess.Popen([*before, self.program, *words], **how)

    def ends(self, what, ended, status, said=b""):
        """A run ended with this status, said this, and complained by the one line of the status."""
        line = LINES.get(status)
        wanted = f"{line}\n".encode() if line else b""
        is_well = ended.status == status and ended.said == said and ended.complained == wanted
        return self.case(what, is_well, f"{ended}, and not status {status}, said {said!r}, complained {wanted!r}")

    def done(self):
        """The last line, and the end."""
        shutil.rmtree(self.room, ignore_errors=True)
        print(f"{self.passed} passed, {self.failed} failed")
        sys.exit(1 if self.failed else 0)


def read(path):
    with open(path, "rb") as file:
        return file.read()


def told_in(path, above=None):
    """The commands and the replies of a document, or of what stands above a text in it: a line of four blanks and a command, and below it its reply."""
    commands, replies = [], []
    text = read(path)
    lines = text[: text.index(above) if above else None].splitlines(keepends=True)
    for at, line in enumerate(lines):
        if line.startswith(b'    {"do":'):
            commands.append(line[4:])
            replies.append(lines[at + 1][4:])
    return commands, replies


def examples():
    """All examples and pages: for each the name, the lines that a new store is given, and the reply to each of them."""
    for path in sorted(glob.glob(f"{TOP}/examples/*.commands")):
        replies = read(f"{path[: -len('commands')]}replies")
        yield f"examples/{os.path.basename(path)}", read(path).splitlines(keepends=True), replies.splitlines(keepends=True)
    for page in ("docs/COMMANDS.md", "docs/SUPERVISED.md"):
        yield page, *told_in(f"{TOP}/{page}")


def write(path, data):
    with open(path, "wb") as file:
        file.write(data)


def mode(path):
    return os.stat(path).st_mode & 0o777
