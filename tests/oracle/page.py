#!/usr/bin/env python3
"""The page of a journal, or of some of its steps, by the rules and nothing else.

    page.py [FROM [TO]] JOURNAL > page.html

It is a second reading of viewer/README.md, written from the lines of a journal and from the events that model.py gives of it, to
compare `chanhub_tool page` with.
"""
import collections
import pathlib
import sys

sys.dont_write_bytecode = True
ROOT = pathlib.Path(__file__).resolve().parents[2]
sys.path.insert(0, str(ROOT / "tools"))
import model
import story_model
import walk

VIEWER = ROOT / "viewer"
BEFORE = ["head.html", "style.css", "body.html"]
BETWEEN = ["story.html"]
SCRIPTS = ["data.js", "view.js", "paint.js", "panel.js", "main.js"]
AFTER = ["scripts.html", *SCRIPTS, "end.html"]
LETTERS = {"make": "m", "send": "s", "recv": "r", "select": "?", "close": "c", "reopen": "o", "cancel": "x", "start": "g",
           "exit": "e"}
BLOCK = 64  # steps
ENDS = {"sent": "s", "got": "g", "drained": "d", "closed": "c", "default": "D", "done": "k", "stalled": "S", "cancelled": "x"}


def told(letter, number):
    """Both, unless the number is 0."""
    return f"{letter}{number}" if number else ""


class Sketch:
    """What the steps of a block have in common, so far: by lane what processes waited and asked, and by port how values moved."""

    def __init__(self, first):
        self.first = first
        self.waited, self.asked, self.troubles = (collections.Counter() for _ in range(3))
        self.most, self.sent, self.got = (collections.Counter() for _ in range(3))

    def wait(self, lane, since, until):
        self.waited[lane] += until - max(since, self.first)

    def text(self, end, lanes, since):
        """The line; since when processes wait behind the block is told."""
        text = "~"
        for lane in range(lanes):
            numbers = self.waited[lane], self.asked[lane], self.troubles[lane], end - since.get(lane, end)
            text += f"P{lane}" + "".join(map(told, "wato", numbers)) if any(numbers) else ""
        for port in sorted({*self.sent, *self.got}):
            text += f"p{port}" + "".join(map(told, "msg", (self.most[port], self.sent[port], self.got[port])))
        return text + "\n"


class Data:
    """The data of a journal, line by line, of which those of steps that are not told are empty. Asked for are its first step and
    the last, and the window has all steps of their blocks, and of those between."""

    def __init__(self, lines, write, asked=None):
        count = len(lines) - 2
        first, last = asked or (1, count)
        self.walk = walk.Walk(lines)
        self.window = range((first - 1) // BLOCK * BLOCK, min(count, -(-last // BLOCK) * BLOCK))
        self.sketch, self.told = Sketch(0), set(self.window)
        texts, sketches = [], []
        for entry, ended in self.walk:
            texts.append(self.line(entry, ended))
            if len(texts) == self.window.start:
                self.told |= {other.place for other in self.walk.waiting.values()}
            if len(texts) % BLOCK == 0 or len(texts) == count:
                sketches.append(self.end_block(len(texts)))
        write("\n".join([*lines[:2], f"steps {first} {last}"]) + ("\n" if self.walk.clock == walk.NOBODY else f" clock {self.walk.clock}\n"))
        for place, text in enumerate(texts):
            write(text if place in self.told else "\n")
            if (place + 1) % BLOCK == 0 or place + 1 == count:
                write(sketches[place // BLOCK])

    def lane(self, entry):
        """One stands for all processes that there are not."""
        return min(entry.pid, self.walk.procs)

    def end_block(self, end):
        since = {pid: entry.place for pid, entry in self.walk.waiting.items()}
        for pid, place in since.items():
            self.sketch.wait(pid, place, end)
        text = self.sketch.text(end, self.walk.procs + 1, since)
        self.sketch = Sketch(end)
        return text

    def line(self, entry, ended):
        pid, word, *more = entry.line.split(" ")
        parts = ("!" if part == "default" else part for part in more)
        asked = pid + LETTERS[word] + (":" if word in ("send", "reopen") else "").join(parts)
        self.sketch.asked[self.lane(entry)] += 1
        if word in ("make", "reopen", "start", "exit"):
            self.told.add(entry.place)
        for other in ended:
            self.sketch.wait(self.lane(other), other.place, entry.place)
            self.sketch.troubles[self.lane(other)] += other.is_trouble
            if other.end == "stalled" or entry.place >= self.window.start and other.place < self.window.stop:
                self.told.add(entry.place)
            if other.move:
                (self.sketch.sent if other.move.side == "s" else self.sketch.got)[other.move.port] += 1
                self.tell_way(other)
        for port in walk.ports_of(ended):
            self.sketch.most[port] = max(self.sketch.most[port], self.walk.ports[port].count)
        stalled = [other for other in ended if other.end == "stalled"]
        return asked + "".join(map(self.end, ended)) + "".join(self.stalls(entry.place, stalled)) + "\n"

    def end(self, entry):
        """How a step ended, and the value that moved so."""
        word, *words = entry.end.split(" ")
        back = f";{entry.by - entry.place}"
        if word in ("made", "fault"):
            return f"{back}{word[0]}{words[0]}"
        if word != "case":
            return back + ENDS[word]
        text = f"{back}{ENDS[words[1]]}{words[0]}"
        if not entry.move:
            return text
        sender = f"@{entry.by - entry.partner.place}" if entry.move.side == "r" else ""
        return f"{text}{sender};{entry.move.port}:{self.walk.ports[entry.move.port].count}"

    def tell_way(self, entry):
        """A step sent what another one received: if one of them is in the window, the other one is told, and by which steps they
        ended."""
        both = [entry, entry.partner] if entry.partner else []
        if any(one.place in self.window for one in both):
            self.told |= {place for one in both for place in (one.place, one.by)}

    def stalls(self, place, stalled):
        """Who was there last, of a send whether all who received there have exited, and for whom each of these calls perhaps
        waits."""
        for wait in self.walk.waits(stalled):
            movers = ("" if mover is None else str(place - mover.place) for mover in (wait.sender, wait.receiver))
            yield f";{wait.port}L{','.join(movers)}" + ("!" if wait.is_left else "")
            yield "" if wait.whom is None else f";{wait.entry.pid}>{wait.whom}"


def text_of(name):
    return (VIEWER / name).read_text()


def joined(names):
    return "".join(map(text_of, names))


def write_page(lines, write, window=None):
    write(joined(BEFORE))
    Data(lines, write, window)
    write(joined(BETWEEN))
    write(story_model.Story("\n".join(lines)).text(1, 0).decode())
    write(joined(AFTER))


def main():
    model.help_if_asked(__doc__)
    *steps, name = sys.argv[1:] or [""]
    if not name or len(steps) > 2 or not all(step.isdigit() for step in steps) or name.startswith("-"):
        sys.exit(__doc__.split("\n\n")[1])
    lines = list(model.lines_of(name))
    window = [int(step) for step in steps]
    if window and not 1 <= window[0] <= window[-1] <= len(lines) - 2:
        model.end_with("no such steps")
    write_page(lines, sys.stdout.write, (window[0], window[-1]) if window else None)


if __name__ == "__main__":
    main()
