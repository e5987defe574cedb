#!/usr/bin/env python3
"""converse.py PROGRAM TOOL: converses with the built chanhub_tool (TOOL), by `serve`, over the examples, random journals and
faulty ones, and compares what it says with what `chanhub replay` (PROGRAM) says of the same journal: line by line, in pieces of
lines, and several lines at a time. The last line counts: 'N passed, M failed'."""
import os
import random
import select
import subprocess
import sys

sys.dont_write_bytecode = True
from programs import JOURNALS, MINUTE as WAIT, count_checks, examples, faulty_journals, said
from random_journal import Journal


class Conversation:
    """A `chanhub_tool serve` that is spoken with."""

    def __init__(self, program):
        pipes = dict.fromkeys(("stdin", "stdout", "stderr"), subprocess.PIPE)
        self.process = subprocess.Popen([program, "serve"], **pipes, bufsize=0)

    def say(self, piece):
        try:
            self.process.stdin.write(piece)
        except BrokenPipeError:
            pass

    def hear(self, length):
        """So many bytes, or fewer where they don't come in time."""
        told = b""
        while len(told) < length and select.select([self.process.stdout], [], [], WAIT)[0]:
            more = os.read(self.process.stdout.fileno(), length - len(told))
            if not more:
                break
            told += more
        return told

    def is_silent(self):
        return not select.select([self.process.stdout], [], [], 0)[0]

    def end(self):
        """What comes behind the last line, the fault line and the status."""
        out, errors = self.process.communicate(timeout=WAIT)
        return out, errors, self.process.returncode


def replay(program, journal):
    status, told, errors = said([program, "replay"], journal)
    return told, errors, status


def answers(program, lines):
    """What is to have been said behind each of these lines."""
    told = [b"", b""]
    for count in range(3, len(lines) + 1):
        told.append(replay(program, b"".join(lines[:count]))[0])
    return told[: len(lines)]


def converses_by_lines(program, tool, journal):
    """Each answer has come before the next line is sent."""
    lines = journal.splitlines(keepends=True)
    talk = Conversation(tool)
    before = b""
    good = True
    for line, told in zip(lines, answers(program, lines)):
        talk.say(line)
        more = told[len(before) :]
        good = good and talk.hear(len(more)) == more and talk.is_silent()
        before = told
    return talk.end() == (b"", b"", 0) and good


def converses_by_pieces(program, tool, journal, draw):
    """Pieces end within lines, and some hold several."""
    talk = Conversation(tool)
    told = b""
    at = 0
    while at < len(journal):
        piece = journal[at : at + draw.choice((1, 2, 3, 7, 40, 200))]
        talk.say(piece)
        at += len(piece)
        whole = journal[: journal.rfind(b"\n", 0, at) + 1]
        if whole.count(b"\n") > 2:
            wanted = replay(program, whole)[0]
            told += talk.hear(len(wanted) - len(told))
            if told != wanted or not talk.is_silent():
                talk.end()
                return False
    return talk.end() == (b"", b"", 0) and told == replay(program, journal)[0]


def converses_at_once(program, tool, journal):
    """All in one piece: what is said of the whole is what a replay says, and so are the fault line and the status. Of a
    faulty journal the lines before the fault are answered, and nothing behind them."""
    wanted, errors, status = replay(program, journal)
    if status == 2:
        line = int(errors.split()[2].rstrip(b":"))
        before = b"".join(journal.splitlines(keepends=True)[: line - 1])
        wanted = replay(program, before)[0] if before.count(b"\n") > 1 else b""
    talk = Conversation(tool)
    talk.say(journal)
    return talk.end() == (wanted, errors, status)


def broken(journal, draw):
    """The journal with one byte changed, added or removed, or with its end cut off."""
    at = draw.randrange(len(journal))
    return draw.choice((
        journal[:at] + bytes([draw.choice(b"0 x\n9#")]) + journal[at + 1 :],
        journal[:at] + bytes([draw.choice(b"0 x\n9#")]) + journal[at:],
        journal[:at] + journal[at + 1 :],
        journal[:at],
    ))


def checks(program, tool, _):
    draw = random.Random(1)
    journals = [(path.name, path.read_bytes()) for path in examples(JOURNALS)]
    journals += [(f"random journal {seed}", Journal(seed, 118).text().encode()) for seed in range(101, 107)]
    for name, journal in journals:
        yield f"{name} by lines", converses_by_lines(program, tool, journal)
        yield f"{name} by pieces", converses_by_pieces(program, tool, journal, draw)
        yield f"{name} at once", converses_at_once(program, tool, journal)
        for nth in range(8):
            yield f"{name} broken {nth}", converses_at_once(program, tool, broken(journal, draw))
    for name, journal, _ in faulty_journals():
        yield f"faulty journal {name}", converses_at_once(program, tool, journal.encode())
    yield "no byte", converses_at_once(program, tool, b"")


if __name__ == "__main__":
    sys.exit(count_checks([checks], *sys.argv[1:3]))
