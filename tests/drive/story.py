#!/usr/bin/env python3
"""story.py TOOL: has the built chanhub_tool (TOOL) tell the examples, random journals and the longest ones, whole and by
windows, and compares each text with the one that story_model.py writes. Runs the rows of tests/stories.toml and
tests/faulty_journals.toml too, and stories with each allocation refused, which needs a C compiler. The last line counts:
'N passed, M failed'."""
import gc
import os
import pathlib
import pty
import random
import subprocess
import sys
import tempfile
import tty

sys.dont_write_bytecode = True
import programs
from programs import JOURNALS, ROOT, examples, refused, table
from random_journal import Journal
from refusals import NO_MEMORY, Refuser
from story_model import Story

RANDOM_JOURNALS = 200
# of these by windows too
WINDOWED = 50
MOST_BYTES = 67_108_864
# the most memory for the story of a journal of so many bytes that has the most entries
MOST_MEMORY = 1_000_000_000
# Runs a program and tells its status and the most memory that was resident. A process begins with what the one has that starts
# it, which here is much; so this small one stands between.
MEASURE = """
import os, subprocess, sys
child = subprocess.Popen(sys.argv[1:], stderr=subprocess.DEVNULL)
_, status, usage = os.wait4(child.pid, 0)
print(os.waitstatus_to_exitcode(status), usage.ru_maxrss * 1024, file=sys.stderr)
"""


class Program:
    """The built program."""

    def __init__(self, path):
        self.path = pathlib.Path(path).resolve()

    def run(self, words, journal=b"", folder=None, **environment):
        """The status, what was written to standard output, and to standard error; nothing where it takes too long. It runs in the
        folder."""
        try:
            return programs.said([self.path, *words], journal, cwd=folder, env={**os.environ, **environment})
        except subprocess.TimeoutExpired:
            return None

    def memory(self, words, journal):
        """The status, how many bytes of text were written, and the most memory in bytes that was resident."""
        with tempfile.TemporaryFile() as text, tempfile.TemporaryFile() as given:
            given.write(journal)
            given.seek(0)
            words = [sys.executable, "-c", MEASURE, self.path, *words]
            said = subprocess.run(words, stdin=given, stdout=text, stderr=subprocess.PIPE, text=True, check=True).stderr
            status, peak = map(int, said.split()[-2:])
            return status, text.seek(0, os.SEEK_END), peak

    def run_in_terminal(self, words, journal, **environment):
        """What it writes to a terminal of a short journal."""
        reader, terminal = pty.openpty()
        tty.setraw(terminal)
        env = {**{name: value for name, value in os.environ.items() if name != "NO_COLOR"}, **environment}
        with subprocess.Popen([self.path, *words], stdin=subprocess.PIPE, stdout=terminal, env=env) as child:
            os.close(terminal)
            child.stdin.write(journal)
            child.stdin.close()
            return programs.all_of(reader)

    def run_to_full(self, words, journal=b""):
        """The status and what was written to standard error, where standard output takes nothing."""
        with open("/dev/full", "wb") as full:
            return programs.said_into("stdout", full, [self.path, *words], journal)

    def run_to_short(self, words, journal, most):
        """The status, what was written to standard error, and to a file that has room for so many bytes."""
        return programs.said_limited("stdout", most, [self.path, *words], journal)

    def run_on_folder(self, words):
        """The same as of `run`, where standard input is a folder, of which nothing can be read."""
        folder = os.open(ROOT, os.O_RDONLY)
        done = programs.said([self.path, *words], stdin=folder)
        os.close(folder)
        return done

    def tells(self, journal, story, window):
        """Whether it tells these steps of the journal, or all where there is no window, as story_model.py does."""
        words = ["story", *(str(step) for step in window or ())]
        return self.run(words, journal.encode()) == (0, story.text(*window or (1, len(story.entries))), b"")


def journals():
    """Each example, and random journals of each edition, and with a clock; and whether they are told by windows too."""
    yield from ((path.name, path.read_text(), True) for path in examples(JOURNALS))
    for third, name in (False, "random journal"), (True, "random journal of the third edition"):
        for seed in range(1, RANDOM_JOURNALS + 1):
            yield f"{name} {seed}", Journal(seed, 0, third).text(), seed <= WINDOWED
    yield from ((name, journal, False) for name, journal in clocked())


def clocked():
    """Journals of hubs with a clock, and some that nearly have one."""
    draw = random.Random(2)
    for seed in range(2, RANDOM_JOURNALS + 1, 2):
        journal = Journal(seed, 0).text()
        if "procs 64\n" not in journal:
            yield f"random journal {seed} with a clock", with_clock(journal, draw)


def with_clock(journal, draw):
    """The journal of a hub with one process more, which is a clock, or nearly one."""
    head, procs, *lines = journal.splitlines()
    clock = int(procs.split()[1])
    lines = [line for line in lines if not line.startswith(f"{clock} ")]
    others = [*(f"{clock} cancel {pid}" for pid in range(clock)), f"0 cancel {clock}"]
    for at in sorted(draw.sample(range(len(lines)), len(lines) // 4), reverse=True):
        lines.insert(at, draw.choice([f"{clock} recv 0", f"{clock} select 3 r0", *draw.choices(others, k=3)]))
    if draw.random() < 0.5:
        lines.insert(0, f"{clock} recv 0")
    if draw.random() < 0.5:
        lines.append(f"{clock} {draw.choice(['exit', 'recv 1', 'make 0', 'close 1', 'select 0 r0 default', 'select 0 r0 r0'])}")
    return "\n".join([head, f"procs {clock + 1}", *lines, ""])


def clocks(program, work):
    """Journals of hubs with a clock in colours."""
    have = 0
    for name, journal in clocked():
        story = Story(journal)
        have += story.clock >= 0
        coloured = 0, story.text(1, len(story.entries), True), b""
        yield f"{name}, coloured", program.run(["story", "--color", "always"], journal.encode()) == coloured
    yield f"some have a clock, not {have}", have > 20


def texts(program, work):
    draw = random.Random(1)
    for name, journal, by_windows in journals():
        story = Story(journal)
        count = len(story.entries)
        one = draw.randint(1, count)
        yield name, program.tells(journal, story, None)
        for window in ((1, count), (1, (count + 1) // 2), (one, one)) if by_windows else ():
            yield f"{name}, steps {window[0]} to {window[1]}", program.tells(journal, story, window)


def colours(program, work):
    """In colours where these are asked for, or where the story goes to a terminal and the environment does not refuse them."""
    for name, journal, by_windows in journals():
        if by_windows:
            story = Story(journal)
            count = len(story.entries)
            for when, coloured in (("always", True), ("never", False), ("auto", False)):
                wanted = 0, story.text(1, count, coloured), b""
                yield f"{name}, {when}", program.run(["story", "--color", when], journal.encode()) == wanted
    for row in table("stories")["story"]:
        journal, story = row["journal"].encode(), Story(row["journal"])
        plain, coloured = (story.text(1, len(story.entries), is_so) for is_so in (False, True))
        for words, environment, wanted in (
            ([], {}, coloured),
            ([], {"NO_COLOR": ""}, coloured),
            ([], {"NO_COLOR": "1"}, plain),
            ([], {"NO_COLOR": "no longer than one byte"}, plain),
            (["--color=never"], {}, plain),
            (["--color=always"], {"NO_COLOR": "1"}, coloured),
            (["-o", "/dev/stdout"], {}, plain),
        ):
            yield f"{row['name']}, {words}, {environment}", program.run_in_terminal(["story", *words], journal, **environment) == wanted


def worked(program, _):
    """The stories that were written by hand: told by the program, and by story_model.py."""
    for row in table("stories")["story"]:
        wanted = row["text"].encode()
        first, last = row.get("steps", (1, len(Story(row["journal"]).entries)))
        words = ["story", *(str(step) for step in row.get("steps", ()))]
        yield row["name"], program.run(words, row["journal"].encode()) == (0, wanted, b"")
        yield row["name"] + " by story_model.py", Story(row["journal"]).text(first, last) == wanted


def faulty_journals(program, _):
    """The fault comes first, whatever steps are asked for."""
    for name, journal, fault in programs.faulty_journals():
        yield name, program.run(["story"], journal.encode()) == refused(fault)
        yield name + " with steps", program.run(["story", "2", "1"], journal.encode()) == refused(fault)


def devices(program, _):
    journal = table("tool")["journal"].encode()
    yield "a full device", program.run_to_full(["story"], journal) == (1, b"chanhub: write failed\n")
    yield "a full device for one step", program.run_to_full(["story", "1", "1"], journal) == (1, b"chanhub: write failed\n")
    yield "a fault before a full device", program.run_to_full(["story"]) == (2, b"chanhub: line 1: bad header\n")
    yield "a folder for a journal", program.run_on_folder(["story"]) == (1, b"", b"chanhub: read failed\n")


def survives_refusals(program, words, journal, refuser):
    return refuser.survives([program.path, *words], journal)


# a story or a picture of it is written piece by piece
LONGER = ("chanhub journal 1\nprocs 2\n0 make 1\n" + "0 send 1 7\n1 recv 1\n" * 800 + "1 recv 1\n").encode()


def begins_under_refusals(program, words, journal, refuser):
    """So does what is written as it goes, but that a beginning of it is written by then, the longer the later memory is refused:
    at first none, and at last some of it."""
    told = program.run(words, journal)
    *done, last = refuser.each([program.path, *words], given=journal)
    begun = [it for it in done if it != told]
    lengths = [len(written) for _, written, _ in begun]
    fit = (it == (1, told[1][:length], NO_MEMORY[2]) for it, length in zip(begun, lengths))
    return last == told and all(fit) and lengths == sorted(lengths) and 0 == lengths[0] < lengths[-1] < len(told[1])


def refused_allocations(program, work):
    refuser = Refuser(work)
    for row in table("stories")["story"]:
        yield row["name"], survives_refusals(program, ["story"], row["journal"].encode(), refuser)
    yield "a story of two pieces", begins_under_refusals(program, ["story"], LONGER, refuser)


def longest_journals(program, _):
    """A journal has at most 1,000,000 entries that are no exits, and two of these have. Each is told within a minute."""
    head = "chanhub journal 1\nprocs 1\n"
    makes = head + "0 make 1025\n" * 1000000 + "0 exit\n"
    values = range((1000000 - 64) // 2)
    passing = "".join(f"0 send {value % 64 + 1} {value}\n0 recv {value % 64 + 1}\n" for value in values)
    passing = head + "0 make 1\n" * 64 + passing + "0 exit\n"
    # More of them than 16 bits count.
    selects = head + "0 make 1\n" + "".join(f"0 select 0 s1:{value} r1\n" for value in range(70000))
    for name, journal in (("makes", makes), ("passing of values", passing), ("selects", selects)):
        yield f"a long journal of {name}", program.tells(journal, Story(journal), None)
    yield "one entry more", program.run(["story"], (makes + "0 make 1025\n").encode()) == refused("line 1000004: too long")


def most_entries(program, _):
    """Exits are no steps, so a journal may have as many as it has bytes for. All but the first are refused."""
    head = b"chanhub journal 1\nprocs 1\n"
    exits = (MOST_BYTES - len(head)) // len(b"0 exit\n")
    status, written, memory = program.memory(["story"], head + b"0 exit\n" * exits)
    yield f"a line for each of {exits} exits", status == 0 and written > exits * len("9586976  P0 exit")
    yield f"their story within {MOST_MEMORY} bytes of memory, not {memory}", memory <= MOST_MEMORY


def count(program, *parts):
    # To look through millions of entries for those that hold each other alone takes a third of the time.
    gc.disable()
    return programs.count_checks(parts, program)


def main():
    parts = worked, texts, clocks, colours, faulty_journals, devices, refused_allocations, longest_journals, most_entries
    return count(Program(sys.argv[1]), *parts)


if __name__ == "__main__":
    sys.exit(main())
