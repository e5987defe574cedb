#!/usr/bin/env python3
"""The story of a journal as text, by the rules and nothing else.

    story_model.py [FROM TO] < JOURNAL

It is a second reading of docs/FORMATS.md, "Stories and pictures", written from the lines of a journal and from the events that
model.py gives of it, to compare chanhub_tool with. It takes well-formed journals only, and steps that they have.
"""
import heapq
import pathlib
import sys

sys.dont_write_bytecode = True
sys.path.insert(0, str(pathlib.Path(__file__).resolve().parents[2] / 'tools'))
import model
import walk

FAULTS = ["no such process", "the process has exited", "the process still waits in a call", "too many cases", "no such port",
          "the capacity is too large", "too many ports", "close of the nil port", "close of a closed port",
          "the journal is full", "out of memory", "that process does not wait", None, None, None, "the port is in use",
          "that process has not exited"]
HEADING = "   step  who asks what                  answer            waited              partner or reason     what else it does"
NO_COLOUR = "\x1b[0m"
LONGEST = 5  # how many of the longest waits are told
ASKS, ANSWER, WAITED, VALUE, ENDS = (HEADING.index(word) for word in ("who", "answer", "waited", "partner", "what else"))
# what a step does to others, in the order in which it is told
DOES = ["frees", "cancels", "times out", "wakes", "stalls"]
ENDS_BY = {"case": "frees", "cancelled": "cancels", "stalled": "stalls"}  # by the first word of the event that ends a call


class Story:
    """A journal, walked through once."""

    def __init__(self, journal):
        lines = journal.splitlines()
        self.walk = walk.Walk(lines)
        self.clock = self.walk.clock
        self.entries = []
        self.ended = {}  # by place, the entries that ended by the one there, but for itself
        self.below = {}  # by place, lines on those whom it stalled
        for entry, ended in self.walk:
            self.entries.append(entry)
            others = [other for other in ended if other is not entry]
            if others:
                self.ended[entry.place] = others
            stalled = [other for other in ended if other.end == "stalled" and other.pid != self.clock]
            if stalled:
                self.below[entry.place] = ["        stall: everyone who is left waits", *self.leavers(), *self.waiters(stalled)]

    def leavers(self):
        """Lines on the processes that have exited so far, and were not started again."""
        for pid, entry in self.walk.exits.items():
            yield f"          P{pid} left at step {entry.place + 1}"

    def waiters(self, entries):
        """Lines on these calls, and who moved a value where they wait."""
        for entry in entries:
            yield f"          P{entry.pid} waits since step {entry.place + 1}"
            for wait in self.walk.waits([entry]):
                what = "send on" if wait.side == "s" else "receive from"
                sender, receiver = (
                    f"P{mover.pid} at step {mover.place + 1}" if mover else "nobody" for mover in (wait.sender, wait.receiver))
                gone = "; all who received there have left" if wait.is_left else ""
                yield f"            to {what} port {wait.port}: last sent by {sender}, last received by {receiver}{gone}"

    def outside(self):
        """A line on the processes that are there in the end and do not wait, if there are any."""
        last = {entry.pid: f"last at step {entry.place + 1}" for entry in self.entries}
        inside = {self.clock, *self.walk.waiting, *self.walk.exits}
        told = [f"P{pid}, {last.get(pid, 'never called')}" for pid in range(self.walk.procs) if pid not in inside]
        return ["outside the hub: " + "; ".join(told)] if told else []

    def answer(self, entry):
        words = self.walk.words(entry)
        return words if words in ("woken", "timed out") else answer(entry)

    def does(self, entry, ended):
        """What an entry did to another one that ended by it."""
        does = ENDS_BY[ended.end.split(" ")[0]]
        if ended.pid == self.clock and does != "frees":
            return "wakes"
        return "times out" if entry.pid == self.clock and does == "cancels" else does

    def line(self, entry):
        line = cell(f"{entry.place + 1:7}", ASKS, "P" + entry.line)
        line = cell(line, ANSWER, self.answer(entry))
        if entry.end is None:
            line = cell(line, WAITED, f"{entry.waited(len(self.entries))}, still")
        elif entry.by > entry.place:
            line = cell(line, WAITED, f"{entry.by - entry.place}, until {entry.by + 1}")
        line = cell(line, VALUE, value(entry))
        line = cell(line, VALUE, "the clock" if entry.pid == self.clock else "")
        does = [(self.does(entry, other), str(other.place + 1)) for other in self.ended.get(entry.place, ())]
        for word in DOES:
            places = [place for done, place in does if done == word]
            line = cell(line, ENDS, " ".join([word, *places]) if places else "")
        return line

    def waits(self):
        """How many of the calls waited, and the lines of those that waited longest, the older of equal ones first; but not the
        clock's."""
        others = [entry for entry in self.entries if entry.pid != self.clock]
        waited = [entry for entry in others if entry.end is None or entry.by > entry.place]
        yield f"{len(waited)} of {sum(entry.word == 'call' for entry in others)} calls waited, the longest first, five at most"
        for entry in heapq.nsmallest(LONGEST, waited, key=lambda entry: (-entry.waited(len(self.entries)), entry.place)):
            yield self.line(entry)

    def text(self, first, last, coloured=False):
        """The text of the steps from one to another, counted from 1; their lines in colours if these are asked for."""
        lines = [HEADING]
        for entry in self.entries[first - 1 : last]:
            colour = colour_of(entry, entry.pid == self.clock) if coloured else ""
            line = self.line(entry)
            lines += [f"{colour}{line}{NO_COLOUR}" if colour else line, *self.below.get(entry.place, ())]
        lines += [port_line(number, port) for number, port in enumerate(self.walk.ports[1:], 1)]
        lines += self.waits()
        waiting = [entry for entry in self.walk.waiting.values() if entry.pid != self.clock]
        if waiting:
            lines += ["in the end these wait", *self.leavers(), *self.waiters(waiting)]
        else:
            lines.append("in the end no call waits")
        lines += self.outside()
        return "".join(line + "\n" for line in lines).encode()


def port_line(number, port):
    maker, opener = port.maker, port.opener
    cap = maker.asked if opener is maker else opener.asked[1]
    most = f" most {port.most} at step {port.fullest + 1}" if port.most else ""
    reopened = "" if opener is maker else f" reopened by P{opener.pid} at step {opener.place + 1}"
    closed = f" closed by P{port.closer.pid} at step {port.closer.place + 1}" if port.closer else ""
    counts = f"sent {port.sent} received {port.received} left {port.count}{most}"
    return f"port {number} cap {cap} {counts} made by P{maker.pid} at step {maker.place + 1}{reopened}{closed}"


def colour_of(entry, is_clock):
    """The escape sequence before the line of a step: yellow where it waits, red for trouble. The clock's waits have none."""
    if is_clock and entry.end in (None, "stalled"):
        return ""
    return "\x1b[33m" if entry.end is None else "\x1b[31m" if entry.is_trouble else ""


def cell(line, column, words):
    """The line, and these words at their column, or two spaces behind it."""
    return line.ljust(max(column, len(line) + 2)) + words if words else line


def value(entry):
    """Where a value went, or came from; of a step that was refused, why."""
    if entry.end is not None and entry.end.startswith("fault"):
        return FAULTS[int(entry.end.split(" ")[1]) - 1]
    if not entry.move:
        return ""
    if entry.partner is None:
        return f"stays in port {entry.move.port}"
    return f"{'to' if entry.move.side == 's' else 'from'} P{entry.partner.pid}, step {entry.partner.place + 1}"


def answer(entry):
    """What an entry was told in the end, with the case that fired where there was a choice."""
    if entry.end is None:
        return "waits"
    if not entry.fired:
        return entry.end
    name = "%s%d " % entry.fired[:2] if len(entry.cases) > 1 else ""
    return name + entry.outcome


def main():
    model.help_if_asked(__doc__)
    story = Story('\n'.join(model.lines_of()))
    first, last = (int(step) for step in sys.argv[1:3] or (1, len(story.entries)))
    sys.stdout.buffer.write(story.text(first, last))


if __name__ == "__main__":
    main()
