#!/usr/bin/env python3
"""page_test.py [TOOL] [N]: checks pages in a headless Chromium: those that the built chanhub_tool (TOOL) writes, or else those
of page.py, with which the bytes of TOOL's are compared. What a page has to show is worked out here from the journal and the
events that model.py tells of it, by picture.py, and not by the page or its data: of N random journals (50) at three zooms, and of
longer ones, each shape or call to a canvas, and no others; of more than 6,000 steps each pixel, on screens of 1, 1.5 and 2 pixels
a dot, and so of the strip; what the page sums up, finds and says; and the rows of tests/pages.toml. The contrasts of all colours
are computed; no error may stand in the console; and a page of a million steps has to open, and be drawn at any zoom, in little
time of the processor. Status 77 without Chromium. The last line counts.
"""
import collections
import fcntl
import itertools
import json
import math
import os
import pathlib
import random
import re
import subprocess
import sys
import tempfile
import types
import unicodedata

sys.dont_write_bytecode = True
from programs import ROOT, Count, table
from random_journal import Journal as RandomJournal
import page
import picture
import story_model

RANDOM = 50
BLOCK, NEVER = 64, 0xffffffff  # steps; no step
MOST_BYTES = 60
VIEWER_LINES, VIEWER_WIDTH = 620, 160
# a million steps: seconds of the processor until they are open, and for a view of them
MILLION, MOST_OPENING, MOST_VIEW = 1000000, 1.5, 0.25
LONG = [(101, 3000), (102, 3000), (103, 2000)]  # seeds of longer journals, and how many steps they have
FAR = 135, 6500  # and of one whose steps are summed up where all are in view
WIDTH, HEIGHT = 1440, 860
LEFT = {"button": "left", "clickCount": 1}

SCRIPT = ROOT / "tests" / "drive" / "page_test.js"
ROWS = table("pages")


def same(what, told, wanted):
    assert told == wanted, f"{what}: {told} and not {wanted}"


class Browser:
    """A Chromium, spoken to by a pair of pipes, with a page."""

    def __init__(self, work):
        (self.ours_in, theirs_out), (theirs_in, self.ours_out) = os.pipe(), os.pipe()

        def number_pipes():
            # the browser reads from 3 and writes to 4; our ends may have these numbers, so they get higher ones first
            ends = [fcntl.fcntl(end, fcntl.F_DUPFD, 10) for end in (theirs_in, theirs_out)]
            os.dup2(ends[0], 3)
            os.dup2(ends[1], 4)

        self.errors, self.buffer, self.number, self.session, self.loaded = [], b"", 0, None, set()
        words = *picture.HEADLESS, "--remote-debugging-pipe", f"--user-data-dir={work}/user"
        how = {"stdout": subprocess.DEVNULL, "stderr": subprocess.DEVNULL, "preexec_fn": number_pipes, "pass_fds": (3, 4)}
        self.process = subprocess.Popen([picture.browser(), *words], **how)
        os.close(theirs_in)
        os.close(theirs_out)
        target = self.ask("Target.createTarget", url="about:blank")["targetId"]
        self.session = self.ask("Target.attachToTarget", targetId=target, flatten=True)["sessionId"]
        for domain in "Page", "Runtime", "Log":
            self.ask(domain + ".enable")
        self.ask("Page.setLifecycleEventsEnabled", enabled=True)
        self.ask("Page.addScriptToEvaluateOnNewDocument", source=SCRIPT.read_text())
        self.ask("Performance.enable", timeDomain="threadTicks")
        self.screen()

    def read(self):
        while b"\0" not in self.buffer:
            more = os.read(self.ours_in, 1 << 20)
            assert more, "the browser has ended"
            self.buffer += more
        text, self.buffer = self.buffer.split(b"\0", 1)
        told = json.loads(text)
        method, more = told.get("method"), told.get("params", {})
        if method == "Page.lifecycleEvent" and more["name"] == "load":
            self.loaded.add(more["loaderId"])
        kind = {"Runtime.exceptionThrown": "error", "Log.entryAdded": more.get("entry", {}).get("level"),
                "Runtime.consoleAPICalled": more.get("type")}.get(method)
        if kind in ("error", "warning", "assert"):
            self.errors.append(json.dumps(more)[:400])
        return told

    def ask(self, method, **more):
        self.number += 1
        call = {"id": self.number, "method": method, "params": more}
        if self.session:
            call["sessionId"] = self.session
        text = json.dumps(call).encode() + b"\0"
        while text:
            text = text[os.write(self.ours_out, text):]
        while True:
            told = self.read()
            if told.get("id") == self.number:
                assert "error" not in told, told
                return told["result"]

    def value(self, script):
        told = self.ask("Runtime.evaluate", expression=script, returnByValue=True, awaitPromise=True)
        assert "exceptionDetails" not in told, told["exceptionDetails"]
        return told["result"].get("value")

    def do(self, script):
        self.value(script)
        self.settle()

    def load(self, url):
        # the page before may answer that it is complete while the new one comes, and would get its first key
        loader = self.ask("Page.navigate", url=url)["loaderId"]
        while loader not in self.loaded:
            self.read()

    def open(self, path, hash=""):
        # of the page that is open, another hash alone would load nothing
        if hash:
            self.load("about:blank")
        self.load(path.as_uri() + hash)
        self.settle()

    def screen(self, width=WIDTH, fine=1):
        """A screen so wide, of so many pixels a dot."""
        self.ask("Emulation.setDeviceMetricsOverride", width=width, height=HEIGHT, deviceScaleFactor=fine, mobile=False)

    def settle(self):
        self.value("new Promise((done) => requestAnimationFrame(() => requestAnimationFrame(done)))")

    def key(self, *keys):
        for key in keys:
            text = {"text": key} if len(key) == 1 else {"text": "\r"} if key == "Enter" else {}
            self.ask("Input.dispatchKeyEvent", type="keyDown", key=key, **text)
            self.ask("Input.dispatchKeyEvent", type="keyUp", key=key)
            self.settle()

    def type(self, text):
        self.ask("Input.insertText", text=text)

    def find(self, text):
        self.key("/")
        self.value("document.getElementById('find').select()")
        self.type(text)
        self.key("Enter")
        self.settle()

    def mouse(self, kind, x, y, **more):
        self.ask("Input.dispatchMouseEvent", type="mouse" + kind, x=x, y=y, **more)
        # What the pointer is over is told by what was drawn.
        self.settle()

    def click(self, where, *lanes):
        """On a step of a process, or the middle between two processes; or where a script says."""
        places = [self.value(f"placeOfStep({where}, {lane})") for lane in lanes] or [self.value(where)]
        x, y = (sum(numbers) / len(places) for numbers in zip(*places))
        self.mouse("Moved", x, y)
        self.mouse("Pressed", x, y, **LEFT)
        self.mouse("Released", x, y, **LEFT)
        self.settle()

    def drag(self, step, lane, by):
        x, y = self.value(f"placeOfStep({step}, {lane})")
        self.mouse("Moved", x, y)
        self.mouse("Pressed", x, y, **LEFT)
        self.mouse("Moved", x + by, y, button="left", buttons=1)
        self.mouse("Released", 200, 300, **LEFT)

    def wheel(self, by):
        self.mouse("Wheel", 400, 200, deltaX=0, deltaY=by)

    def choose(self, place):
        """Chooses a step, or none."""
        self.value(f"page.choose({json.dumps(place)}); page.paint()")

    def texts(self, of):
        """What is told in each of these elements of the page, with single spaces."""
        return self.value(f"textsOf({json.dumps(of)})")

    def title(self):
        return self.value("titleOfPanel()")

    def found(self, *several):
        """What each of these words finds, one after the other."""
        return self.value(f"foundBy(...{json.dumps(several)})")

    def seconds(self):
        """How long the page has had the processor."""
        told = self.ask("Performance.getMetrics")["metrics"]
        return next(metric["value"] for metric in told if metric["name"] == "TaskDuration")

    def end(self):
        self.ask("Browser.close")
        self.process.wait(timeout=picture.WAIT)


# ---- what a page has to show


class Journal(picture.Journal):
    """A journal, of whose steps a page tells all, or those of a window and others by the rules of viewer/README.md."""

    def __init__(self, text, shown=None):
        super().__init__(text)
        self.count = len(self.entries)
        self.shown = first, last = shown or (1, self.count)
        blocks = range((first - 1) // BLOCK, (last - 1) // BLOCK + 1)
        self.window = range(blocks.start * BLOCK, min(self.count, blocks.stop * BLOCK))
        self.told = set(self.window)
        for one in self.entries:
            by = one.by if one.end else NEVER
            if one.place < self.window.start <= by or one.word in ("make", "reopen", "start", "exit"):
                self.told.add(one.place)
            if one.end and (one.end == "stalled" or by >= self.window.start and one.place < self.window.stop):
                self.told.add(by)
        ways = [(sent, sent.partner) for sent in self.passages()]
        near = (way for way in ways if any(one.place in self.window for one in way))
        self.told |= {place for way in near for one in way for place in (one.place, one.by)}
        for one in self.entries:
            assert one.place not in self.told or one.end is None or one.by in self.told, f"the end of step {one.place + 1}"
        for sent, received in ways:
            if sent.place not in self.told:  # who got a value that is not told got one
                received.end = re.sub(" got .*", " got a value", received.end)
                received.move = received.move._replace(value=None)

    def tells(self, *places):
        return self.told.issuperset(places)

    def lane(self, one):
        """One stands for all processes that there are not."""
        return min(one.pid, self.procs)


def name_of(one):
    return f"P{one.pid}, step {one.place + 1}"


def label_of(one):
    """The text of a box without its value."""
    end, case, (word, *words) = one.end or "", picture.shown_case(one), one.line.split()[1:]
    if end.startswith("fault"):
        return "f" + end.split()[1]
    if case:
        return case[0] + str(case[1])
    if word in ("close", "reopen", "cancel", "start"):
        return {"close": "c", "reopen": "o", "cancel": "x", "start": "g"}[word] + words[0]
    return {"make": "m" + end[5:], "select": "def" if end == "default" else "?", "exit": "exit"}[word]


def value_of(one):
    """The value that a step moved, as the journal spells it, if that is told."""
    return one.move and one.move.value


def readable(value):
    """Bytes as text where they are that, without control characters."""
    if not value.startswith("#"):
        return value
    try:
        text = bytes.fromhex(value[1:]).decode()
    except UnicodeDecodeError:
        return value
    hidden = (re.match("C|Z[lp]", unicodedata.category(letter)) for letter in text)
    return value if "\ufffd" in text or any(hidden) else f"\u201c{text}\u201d"


def held(journal):
    """The levels: equal ones that follow each other are one."""
    merged = []
    for level in journal.held():
        if merged and merged[-1].port == level.port and merged[-1].until == level.first and merged[-1].count == level.count:
            merged[-1] = merged[-1]._replace(until=level.until)
        else:
            merged.append(level)
    return merged


def held_after(journal, port, step):
    """The sends whose values a port holds after a step, oldest first; and of these those by steps of the window."""
    sent, received = ([one for one in journal.moved[side][port] if one.by <= step] for side in "sr")
    still = sent[len(received) :]
    return still, [one for one in still if one.by >= journal.window.start]


def guess_of(journal, by, wait):
    """For whom a stalled case perhaps waits: a send on a port from which somebody last took its own value back for one whose
    value it holds, if that one is stalled too and does not wait to send there; or else for whom pictures name."""
    stalled = {one.pid: one.cases for one in journal.stalled if one.by == by}
    passed = [sent for sent in journal.moved["s"][wait.port] if sent.partner and sent.partner.by <= by and wait.side == "s"]
    if passed and not journal.tells(passed[-1].place, passed[-1].partner.place):
        return None
    if passed and passed[-1].pid == passed[-1].partner.pid:
        for owner in held_after(journal, wait.port, by)[1]:
            if owner.pid in stalled and ("s", wait.port) not in [case[:2] for case in stalled[owner.pid]]:
                return owner.pid
    return wait.whom


def guesses(journal, by):
    """Of each case of those whom a step stalls, if that is told, who perhaps waits for whom, or for nobody."""
    return [(wait, guess_of(journal, by, wait)) for wait in journal.vain.get(by, ()) if by in journal.window]


def ways(journal):
    """By the place of each move, all moves of that value on its way: a process passes on what it got if it sends the same before
    it gets another, so a send continues the way of what its process got last, if that is the same."""
    first, last = {}, {}
    for one in (one for one in journal.entries if one.move):
        if one.move.side == "r":
            last[one.pid] = one
        else:
            got = last.get(one.pid)
            first[one.place] = first[got.partner.place] if got and got.move.value == one.move.value else one.place
    moves = collections.defaultdict(set)
    for send, root in first.items():
        received = journal.entries[send].partner
        moves[root] |= {send} | ({received.place} if received else set())
    return {place: way for way in moves.values() for place in way}


# ---- what its panel says


def answer_of(one):
    """What a step was told, in words."""
    if one.end is None:
        return "waits to the end"
    fault = re.fullmatch(r"fault (\d+)", one.end)
    told = re.sub(r"^case \d+ ", "", f"{one.end}: {story_model.FAULTS[int(fault[1]) - 1]}" if fault else one.end)
    return f"got {readable(told[4:])}" if told.startswith("got ") else told


def case_words(case):
    side, port, *value = case
    return f"send {readable(str(*value))} on port {port}" if side == "s" else f"receive from port {port}"


def held_lines(journal, by):
    """Of each port on which a call that a step stalled waits to send, if it holds values."""
    for port in dict.fromkeys(wait.port for wait in journal.vain.get(by, ()) if wait.side == "s"):
        still, known = held_after(journal, port, by)
        told = [f"{readable(value_of(one))}, sent by P{one.pid} at step {one.place + 1}" for one in known[:4]]
        words = "; ".join(told + [".."] * (len(known) > 4))
        if still:
            yield f"port {port} holds {len(still)} value{'s' * (len(still) > 1)}{': ' * bool(told)}{words}"


def stalled_lines(journal, by):
    """Of each call that a step stalled."""
    for one in journal.stalled:
        if one.by == by:
            others = [guess_of(journal, by, wait) for wait in journal.vain[by] if wait.entry is one]
            told = "".join(f"; perhaps for P{other}" for other in others if other is not None)
            yield f"{name_of(one)} waits to {' or to '.join(map(case_words, one.cases))}{told}"


def last_cells(journal, by):
    """Of each port on which a call that a step stalled waits: who sent and who received there last, and, if one waits to send
    there, whether all who received have exited."""
    waits = collections.defaultdict(list)
    for wait in journal.vain.get(by, ()):
        waits[wait.port].append(wait)
    waits.pop(0, None)
    for port, several in waits.items():
        sender, receiver = (
            "nobody" if one is None else name_of(one) if journal.tells(one.place) else f"step {one.place + 1} (not told)"
            for one in (several[0].sender, several[0].receiver))
        yield from (str(port), sender, receiver + "; all who received there have left" * any(wait.is_left for wait in several))


def cause_lines(journal, by):
    """Of a deadlock first: to which port nobody ever came, who wait for each other, and who is left alone."""
    told, pairs = [], []
    for wait, other in guesses(journal, by):
        mover, absent = (wait.receiver, "received from") if wait.side == "s" else (wait.sender, "sent on")
        told += [f"Before it nobody {absent} port {wait.port}."] * bool(wait.port and mover is None)
        pairs += [(wait.entry.pid, other)] * (other is not None)
    mutual = [(pid, other) for pid, other in pairs if pid < other and (other, pid) in pairs]
    told += [f"P{pid} and P{other} perhaps wait for each other." for pid, other in mutual]
    is_alone = sum(one.by == by for one in journal.stalled) == 1 and journal.procs > 1
    return dict.fromkeys(told + ["All others have exited."] * is_alone)


def deadlock_lines(journal):
    """Of the first deadlock and the last four: whom they stall."""
    told = [f"step {by + 1} stalls {', '.join(f'P{one.pid}' for one in journal.stalled if one.by == by)}" for by in journal.vain]
    return [*told[:1], *[f"and {len(told) - 5} more, then"] * (len(told) > 5), *told[1:][-4:]]


def before_lines(journal, place):
    """Of the six steps before one: what they were told by then."""
    for one in journal.entries[max(0, place - 6) : place]:
        answer = answer_of(one) if one.end and one.by < place else "waits"
        yield f"{one.place + 1} {f'{one.line} {answer}' if journal.tells(one.place) else 'not told'}"


def own_steps(journal, place):
    """The steps before and behind one that its process asked, if they are there."""
    own = [one.place for one in journal.entries if one.pid == journal.entries[place].pid]
    at = own.index(place)
    return own[at - 1] if at else None, own[at + 1] if at + 1 < len(own) else None


def waits_of(journal):
    """All calls that waited, the longest first and the older of equal ones first."""
    waited = [one for one in journal.entries if one.end is None or one.by > one.place]
    return sorted(waited, key=lambda one: (-one.waited(journal.count), one.place))


def longest_cells(journal):
    """Of the longest waits: for how many steps, who, and who ended it."""
    for one in waits_of(journal)[:5]:
        ender = "the deadlock at" if one.end == "stalled" else f"P{journal.entries[one.by].pid}," if one.end else ""
        until = f"{ender} step {one.by + 1}" if one.end else "the end"
        told = [f"{one.line} {answer_of(one)}", until] if journal.tells(one.place) else ["(not told)"]
        yield from (str(one.waited(journal.count)), f"{name_of(one)} {told[0]}", *told[1:])


# ---- what it draws


class Drawn:
    """The shapes in the page, the calls to the canvas, and by the names the scales: where a step and where a process stands."""

    def __init__(self, browser, procs):
        self.shapes = [types.SimpleNamespace(**told) for told in browser.value("shapesDrawn()")]
        calls = browser.value("window.drawn")
        self.colours = browser.value("coloursOfPage()")
        self.width = browser.value("document.getElementById('lanes').clientWidth")
        self.rects = [words for canvas, name, words in calls if (canvas, name) == ("far", "fillRect")]
        ticks = sorted((int(words[0]), words[1]) for canvas, _, words in calls if canvas == "axis" and str(words[0]).isdigit())
        (first, left), (last, right) = ticks[0], ticks[-1]
        self.dots = (right - left) / (last - first)
        self.zero = left - first * self.dots
        names = {shape.text: shape.y for shape in self.kind("name")}
        self.lanes = {pid: names[f"P{pid}"] for pid in range(procs)} | ({procs: names["unknown"]} if "unknown" in names else {})
        self.ports = {int(name[5:]): y for name, y in names.items() if name.startswith("port ")}

    def kind(self, name):
        return [shape for shape in self.shapes if name in shape.kind]

    def x(self, place):
        return self.zero + (place + 1) * self.dots

    def place(self, x):
        return round((x - self.zero) / self.dots) - 1

    def lane(self, y):
        return min(self.lanes, key=lambda pid: abs(self.lanes[pid] - y))

    def port(self, y):
        return min(self.ports, key=lambda port: abs(self.ports[port] - y))


def close(one, other, by=1.0):
    return len(one) == len(other) and all(
        abs(a - b) <= by if isinstance(a, float) or isinstance(b, float) else a == b for a, b in zip(one, other))


def agree(name, drawn, wanted, by=1.0):
    """All of these are drawn, as often as wanted, and nothing else."""
    left = sorted(drawn)
    for shape in sorted(wanted):
        found = next((at for at, other in enumerate(left) if close(shape, other, by)), None)
        assert found is not None, f"no {name} {shape} among {left[:6]}"
        left.pop(found)
    assert not left, f"{name} too many: {left[:4]}"


def title_of(one, count):
    """What the mouse on a box is told."""
    steps = one.waited(count)
    waits = f", waited {steps} step{'s' * (steps != 1)}" if one.end is None or steps > 0 else ""
    return f"step {one.place + 1}: {one.line}\n{answer_of(one)}{waits}"


def bars_of(drawn, journal, first, end):
    """Each call that waits, from where to where, and whether it ends."""
    for one in journal.entries:
        until = journal.count if one.end is None else one.by
        if journal.tells(one.place) and one.place < until and one.place < end and until >= first:
            begin = max(62.0, drawn.x(one.place))
            yield one, begin, max(begin, min(drawn.width + 2, drawn.x(until))), journal.lane(one)


def levels_of(drawn, journal, first, end):
    for level in held(journal):
        until = min(journal.count if level.until is None else level.until, journal.window.stop)
        since = max(level.first, journal.window.start - 1)
        if since < min(end, journal.window.stop) and until >= max(first, journal.window.start):
            left = max(64.0, drawn.x(since))
            right = max(left + 1, min(float(drawn.width), drawn.x(until)))
            yield left, right, level.port, 16.0 * level.count / journal.ports[level.port].room


def look_of(one, colours):
    """How the box of a step is filled, and how its edge is dashed."""
    label, end = label_of(one), "trouble" if one.is_trouble else (one.end or "still").split()[-1]
    is_case = re.fullmatch(r"[sr]\d+", label)
    fill = "grey" if not is_case else "paper" if label[0] == "r" else "edge" if label == "s0" else f"h{int(label[1:]) % 8}"
    dashes = {"trouble": "6px, 2px", "still": "4px, 3px", "drained": "2px, 3px", "cancelled": "1px, 2px"}
    return colours[fill], dashes.get(end, "none")


def check_boxes(drawn, journal, first, end):
    boxes = {one.place: one for one in journal.entries[first:end] if journal.tells(one.place)}
    wanted = [(drawn.x(one.place), journal.lane(one)) for one in boxes.values()]
    agree("box", [(shape.center, drawn.lane(shape.middle)) for shape in drawn.kind("box")], wanted)
    for shape in drawn.kind("box"):
        one = boxes[drawn.place(shape.center)]
        same("a box", shape.told, title_of(one, journal.count))
        if drawn.dots >= 5:
            same(f"step {one.place + 1} looks", (shape.fill, shape.dash), look_of(one, drawn.colours))
    texts = {drawn.place(shape.x): shape.text for shape in drawn.kind("label")}
    for one in boxes.values() if drawn.dots >= 60 else ():
        label, value, told = label_of(one), value_of(one), texts.get(one.place)
        whole = label if value is None else f"{label}:{readable(value)}"
        assert told in {label, whole}, f"box {one.place + 1}: {told} and not {label} or {whole}"
        assert value is None or len(label + value) > 6 or told == whole, f"no value at step {one.place + 1}: {told}"


def check_shapes(drawn, journal, first, end):
    def drawn_as(name, of):
        return [of(shape) for shape in drawn.kind(name)]

    lane, colours = drawn.lane, drawn.colours
    is_seen = lambda *places: any(first <= place < end for place in places)
    check_boxes(drawn, journal, first, end)
    bars = list(bars_of(drawn, journal, first, end))
    agree("bar", drawn_as("bar", lambda it: (float(it.x), float(it.right), lane(it.middle))), [bar[1:] for bar in bars])
    agree("knob", drawn_as("knob", lambda it: (float(it.cx), lane(it.cy))), [
        (right, pid) for one, _, right, pid in bars if one.end and one.by < end])
    agree("arrow", drawn_as("arrow", lambda it: (it.way[0], it.way[-2], lane(it.way[1]), lane(it.way[-1]), it.stroke)), [
        (drawn.x(sent.by), drawn.x(got.by), journal.lane(sent), journal.lane(got), colours[f"h{sent.move.port % 8}"])
        for sent, got in ((sent, sent.partner) for sent in journal.passages())
        if journal.tells(sent.place, sent.by, got.place, got.by) and is_seen(sent.by, got.by)])
    levels = drawn_as("level", lambda it: (float(it.x), float(it.right), drawn.port(it.y + it.height - 8), float(it.height)))
    agree("level", levels, levels_of(drawn, journal, first, end), 0.6)
    agree("stall", drawn_as("field", lambda it: (it.center, lane(it.middle))), [
        (drawn.x(one.by), one.pid) for one in journal.stalled if is_seen(one.by) and journal.tells(one.place)])
    agree("guess", {*drawn_as("guess", lambda it: (it.way[0], lane(it.way[1]), lane(it.way[-1])))}, {
        (drawn.x(by) + min(66, drawn.dots * 0.9) / 2 + 3, wait.entry.pid, other)
        for by in journal.vain if is_seen(by) for wait, other in guesses(journal, by) if other is not None})


def check_canvas(drawn, journal, first, end):
    """The same of more steps, where a box is a rectangle without an edge, and there are no arrows."""
    bottom, width = max(drawn.lanes.values()) + 8, max(1, drawn.dots * 0.9)
    lanes, levels = ([words for words in drawn.rects if (words[1] < bottom) == is_lane] for is_lane in (True, False))
    as_wide = [words for words in lanes if abs(words[2] - width) < 0.01]
    height = max((words[3] for words in as_wide), default=0)
    boxes = [words for words in as_wide if words[3] >= 4 and words[3] == height]
    agree("box", [(x + w / 2, drawn.lane(y + h / 2)) for x, y, w, h in boxes], [
        (drawn.x(one.place), journal.lane(one)) for one in journal.entries[first:end] if journal.tells(one.place)])
    thin = min((words[3] for words in lanes), default=0)
    bars = [words for words in lanes if words[3] == thin and words not in boxes]
    wanted = [bar[1:] for bar in bars_of(drawn, journal, first, end)]
    agree("bar", [(float(x), float(x + w), drawn.lane(y + h / 2)) for x, y, w, h in bars], wanted)
    wanted = levels_of(drawn, journal, first, end)
    agree("level", [(float(x), float(x + w), drawn.port(y + h - 8), float(h)) for x, y, w, h in levels], wanted, 0.6)


def pixels_of(browser, id):
    """Of each column of a canvas the runs of one colour: from where to where, and which, as colours are spelled."""
    for runs in browser.value(f"pixelsOf('{id}')"):
        assert all(alpha == 255 for *_, alpha in runs), "a pixel that shines through"
        yield [(top, end, f"rgb({red}, {green}, {blue})") for top, end, red, green, blue, _ in runs]


def rounded(number):
    return math.floor(number + 0.5)


def rows_of(size, fine):
    """How many pixels high a column of so many dots is; of a height that is a half more than whole, both."""
    return {max(1, rounded(one * fine)) if one > 0.2 else 0 for one in (size - 1e-7, size + 1e-7)}


def most_held(journal, port, first, until):
    """The most that a port held after one of these steps, or before them."""
    levels = (level for level in journal.held() if level.port == port and level.first < until)
    return max((level.count for level in levels if level.until is None or level.until >= first), default=0)


class Summed:
    """What is known of each block of steps, counted step by step: what lanes waited and so on, before it and before the end."""

    def __init__(self, journal):
        self.count, self.tables = journal.count, {}
        self.blocks = [(first, min(self.count, first + BLOCK)) for first in range(0, self.count, BLOCK)]
        self.ends = [0, *(end for _, end in self.blocks)]
        for lane in range(journal.procs + 1):
            own = [(one, one.by if one.end else self.count) for one in journal.entries if journal.lane(one) == lane]
            for name, count in {
                "waited": lambda end: sum(max(0, min(by, end) - one.place) for one, by in own),
                "asked": lambda end: sum(one.place < end for one, _ in own),
                "troubles": lambda end: sum(by < end and one.is_trouble for one, by in own),
                "open": lambda end: max((one.place for one, by in own if one.place < end <= by != one.place), default=NEVER),
            }.items():
                self.tables[name, lane] = [*map(count, self.ends)]
        ports = sorted({level.port for level in journal.held()})
        self.most = {port: [most_held(journal, port, *block) for block in self.blocks] for port in ports}

    def of_block(self, name, lane, at):
        one, other = self.tables[name, lane][at : at + 2]
        return other - one

    def before(self, name, lane, step):
        """How much it was before a step, if that of each block was spread evenly over it."""
        at = min(len(self.blocks) - 1, int(max(0, step) // BLOCK))
        begin, end = self.blocks[at]
        return self.tables[name, lane][at] + self.of_block(name, lane, at) * (step - begin) / (end - begin)

    def share(self, name, lane, first, end):
        return (self.before(name, lane, end) - self.before(name, lane, first)) / (end - first)


def columns_of(drawn, journal, summed, first, end, fine):
    """The runs that a column of these steps may have: of most there is one."""
    rows = []
    lane_height = drawn.lanes[1] - drawn.lanes[0]
    for name, colour, weight in ("waited", "h1", 0.8), ("asked", "edge", 1.2), ("troubles", "trouble", 1e9):
        for lane, y in drawn.lanes.items():
            size = min(1, summed.share(name, lane, first, end) * weight) * (lane_height - 2)
            rows.append((drawn.colours[colour], y * fine, rows_of(size, fine), 0.5))
    for port, y in drawn.ports.items():
        most = max(summed.most[port][int(max(0, first) // BLOCK) : math.ceil(end / BLOCK)])
        many = rows_of(16 * most / journal.ports[port].room, fine)
        rows.append((drawn.colours[f"h{port % 8}"], (y + 8) * fine, many, 1))
    for several in itertools.product(*(many for _, _, many, _ in rows)):
        colours = {}
        for (colour, y, _, above), many in zip(rows, several):
            top = rounded(y - many * above)
            colours |= dict.fromkeys(range(top, top + many), colour)
        yield runs_of(colours)


def runs_of(colours):
    """The runs of a column, from the colour of each row."""
    runs = []
    for row in sorted(colours):
        if runs and runs[-1][1:] == (row, colours[row]):
            runs[-1] = (runs[-1][0], row + 1, colours[row])
        else:
            runs.append((row, row + 1, colours[row]))
    return runs


def check_far(browser, journal, summed, first, steps, fine):
    """Each pixel of more steps than are drawn one by one."""
    drawn, *_ = drawn_at(browser, journal, first, steps)
    step_at = lambda x: min(float(summed.count), (x - drawn.zero) / drawn.dots - 0.5)
    pixels = list(pixels_of(browser, "far"))
    width = math.floor(min(drawn.width, drawn.x(summed.count - 1) + drawn.dots / 2) - 64)
    same("columns", len(pixels), rounded(drawn.width * fine))
    wanted = [[[]]] * len(pixels)
    for left in range(64, 64 + width, 2):
        columns = list(columns_of(drawn, journal, summed, step_at(left), step_at(left + 2), fine))
        for x in range(rounded(left * fine), min(len(pixels), rounded((left + 2) * fine))):
            wanted[x] = columns
    for x, (one, several) in enumerate(zip(pixels, wanted)):
        assert one in several, f"column {x}: {sorted({*one} ^ {*several[0]})[:3]}"


def check_columns(browser, count, work):
    """Views from afar, on several screens, and whether a wrong one would be noticed."""
    text = RandomJournal(*FAR).text()
    journal, path, right = Journal(text), work / "far.html", page_of(text)
    summed = Summed(journal)

    def look(text, fine, *view):
        browser.screen(fine=fine)
        path.write_text(text)
        browser.open(path)
        check_far(browser, journal, summed, *view, fine)

    for fine, *view in (1, 0, FAR[1]), (1, 300, 6100), (1.5, 300, 6100), (2, 0, FAR[1]), (2, 300, 6100):
        count.run(f"columns of {view[1]} steps, {fine} pixels a dot", lambda: look(right, fine, *view))
    for row in ROWS["broken"]:
        wrong = right.replace(row["old"], row["new"])
        is_noticed = fails(lambda: look(wrong, 2, 300, 6100))
        count.test(f"it is noticed that {row['name']}", right.count(row["old"]) == 1 and is_noticed)
    browser.screen()


def fails(check):
    """Whether a check notices something."""
    try:
        check()
    except AssertionError:
        return True
    return False


def drawn_at(browser, journal, first, steps):
    """What is drawn of these steps; the first whose column reaches between the lanes' names and the right edge, by the axis, and
    the one behind the last."""
    browser.value(f"page.view.show({first}, {steps}); window.drawn = []; page.paint()")
    drawn = Drawn(browser, journal.procs)
    first, end = (round((x - drawn.zero) / drawn.dots - 0.5, 6) for x in (64, drawn.width))
    return drawn, math.floor(first), min(journal.count, math.ceil(end))


def check_view(browser, journal, first, steps):
    """What is drawn of these steps: shapes, or of many of them a canvas."""
    drawn, *seen = drawn_at(browser, journal, first, steps)
    (check_shapes if steps <= 500 else check_canvas)(drawn, journal, *seen)
    check_fields(browser, drawn, journal)


def check_fields(browser, drawn, journal):
    """Pale fields stand where the columns of the steps before the window and behind it are in view, and say so."""
    told, dots = browser.value("fieldsOfPage()"), drawn.dots / 2
    for (left, width, text), (first, end) in zip(told, ((0, journal.window.start), (journal.window.stop, journal.count))):
        begin, until = max(64, drawn.x(first) - dots), min(drawn.width, drawn.x(end) - dots)
        wanted = [begin, until - begin] if until > begin else [left, 0]
        assert close([float(left), float(width)], wanted, 1.1), f"a field {left} {width} and not {wanted}"
        assert width == 0 or text == f"not told: steps {first + 1} to {end}, but for boxes", text


TOOLS = []  # the program that writes pages, if one is given


def page_of(text, window=None):
    """The page of a journal, or of the steps from one to another, which the program writes as page.py does."""
    made = []
    page.write_page(text.splitlines(), made.append, window)
    wanted = "".join(made)
    for tool in TOOLS:
        words = [tool, "page", *map(str, window or ())]
        told = subprocess.run(words, input=text.encode(), stdout=subprocess.PIPE, check=True).stdout.decode()
        at = len(os.path.commonprefix([told, wanted]))
        assert told == wanted, f"{told[at - 40:at + 40]!r} and not {wanted[at - 40:at + 40]!r}"
    return wanted


def open_page(browser, text, path, window=None):
    path.write_text(page_of(text, window))
    browser.open(path)


def check_waiting(browser, journal):
    """How many processes wait in each column of the strip, and where calls are stalled."""
    browser.value("page.layOut()")
    colours, pixels = browser.value("coloursOfPage()"), list(pixels_of(browser, "strip"))
    dot = journal.count / WIDTH
    waits = [(one.place, one.by if one.end else journal.count) for one in waits_of(journal)]
    marks = {int(by / dot) + more for by in journal.vain for more in range(max(2, int(1 / dot)))}
    same("columns", len(pixels), WIDTH)
    for x, runs in enumerate(pixels):
        first, end = x // 2 * 2 * dot, (x // 2 * 2 + 2) * dot
        height = 32 / journal.procs * sum(max(0, min(until, end) - max(since, first)) for since, until in waits) / (end - first)
        waiting = [[(48 - rows, 48, colours["h1"])] if rows else [] for rows in rows_of(height, 1)]
        wanted = [[(16, 48, colours["trouble"])]] if x in marks else waiting
        assert runs in wanted, f"column {x}: {runs} and not {wanted}"


def check_journal(browser, count, path, text, name, views, draw, window=None):
    """The page of a journal, or of some of its steps: these views, what it sums up, finds and says; nothing that is not told is
    drawn, found, chosen or said."""
    journal = Journal(text, window)
    open_page(browser, text, path, window)
    name = f"steps {window[0]} to {window[1]} of {name}" if window else name
    run = lambda what, check, *words: count.run(f"{name}: {what}", lambda: check(*words))
    if window:
        *opened, least = browser.value("[page.view.first, page.view.steps, (page.view.width - 64) / 90]")
        steps = float(min(journal.count, max(window[1] - window[0] + 1, least)))
        count.test(f"{name} are in view", close(opened, [min(window[0] - 1, journal.count - steps), steps], 0.5), opened)
        views = [opened, *views]
    for view in views:
        run(f"view {view}", check_view, browser, journal, *view)
    if window:
        run("the way back", check_way_back, browser, journal, opened)
        run("what is told", check_told, text, journal)
    else:
        run("strip", check_waiting, browser, journal)
        run("sketches", check_sketches, text, journal)
        run("data", check_data, browser, journal)
        run("ways", check_ways, browser, journal)
    run("search", check_search, browser, journal)
    run("panel", check_panel, browser, journal, draw)


def check_random(browser, count, work, seed, most=0, third=False):
    """A random journal, and some of its steps. Of many blocks what a window shows began and ended in other ones."""
    text = RandomJournal(seed, most, third).text()
    name, draw, total = f"{'long' if most else 'random'} journal {seed}", random.Random(seed).randrange, text.count("\n") - 2
    views = [(draw(total - steps + 1), steps) for steps in (total, *((900, 450, 100, 100, 30, 30) if most else (40, 12)))]
    ends = zip(range(3, most // BLOCK, 4), (60, 58, 57, 30, 2, 0) * 9)  # of blocks
    views += [(at * BLOCK - back, 60) for at, back in ends]
    check_journal(browser, count, work / "random.html", text, name, views, draw)
    first = total // 3 if most else draw(total) + 1
    last = first + (700 if most else draw(min(90, total - first + 1)))
    views = [(0, total), (first - 30, 100), (last - 30, 60), (total - 50, 50)] if most else [(0, total), (max(0, first - 6), 30)]
    check_journal(browser, count, work / "random.html", text, name, views, draw, (first, last))


def check_way_back(browser, journal, opened):
    """A link in the header leads to the steps that are told, if not all are."""
    browser.value("page.view.show(0, 40); new Promise((done) => setTimeout(done, 300))")  # until the address has followed
    links, first, end = browser.texts("#part a"), journal.window.start, journal.window.stop
    same("links", links, [f"Steps {first + 1} to {end}"] * (end - first < journal.count))
    said = browser.value("document.getElementById('told').parentElement.checkVisibility()")
    same("what is said of values that lie in a port all along", said, bool(links))
    if links:
        browser.do("document.querySelector('#part a').click()")
        view = browser.value("[page.view.first, page.view.steps]")
        assert close(view, opened, 0.5) and browser.title() == "The whole", view
    begin = math.ceil(round(browser.value("page.view.first"), 6))
    several = browser.found("P0")[0]
    for place in several and [next((place for place in several if place >= begin), several[0])]:
        same(f"found from {begin} on", browser.title(), f"Step {place + 1} of P0")
    browser.value("page.endFind(); page.choose(null)")
    named = map(int, re.findall(r"step (\d+)", browser.value("document.getElementById('end').textContent")))
    same("links", {*map(int, browser.texts("#end a"))}, {step for step in named if journal.tells(step - 1)})


def check_told(text, journal):
    lines, whole, (first, last) = data_of(text, journal.shown).splitlines(), data_of(text).splitlines()[3:], journal.shown
    same("what is shown", lines[2], f"steps {first} {last}")
    pairs = list(zip(lines[3:], whole))
    for place, (told, line) in enumerate(pair for pair in pairs if pair[1][0] != "~"):
        same(f"step {place + 1}", told, line if journal.tells(place) else "")
    assert all(told == line for told, line in pairs if line[0] == "~"), "sketches"


def check_value(browser, journal, one):
    """What the panel says of a value that a step moved: what it was, and where its other end is, if that is told."""
    said, value, other = browser.texts("#value")[0], value_of(one), one.partner
    if not one.move:
        return same(f"a value at step {one.place + 1}", said, "")
    is_known = other and journal.tells(other.place)
    if one.move.side == "r":
        where = f"from {name_of(other)}" if is_known else f"from step {other.place + 1} (not told)"
    elif is_known:
        where = f"to {name_of(other)}"
    else:
        where = "stays in port" if one.place in journal.window else "who got it is not told"
    what = "not told" if value is None else readable(value)
    assert said.startswith(what + " ") and where in said, f"value of step {one.place + 1}: {said} and not {what} {where}"


JUNK = re.compile("null|undefined|NaN|Infinity|\\[object")


def check_step(browser, journal, place):
    """What the panel says of a step: of its value, of the steps before it and of those of its process, and of whom it stalls."""
    browser.choose(place)
    same("title", browser.title(), f"Step {place + 1} of P{journal.entries[place].pid}")
    said = browser.value("document.getElementById('panel').innerText")
    assert not JUNK.search(said), (place + 1, JUNK.search(said), said)
    check_value(browser, journal, journal.entries[place])
    wanted = {"#before li": before_lines}
    if place in journal.window:
        wanted |= {"#cause li": cause_lines, "#full li": held_lines, "#stalled li": stalled_lines, "#last td": last_cells}
    for what, lines in wanted.items():
        same(f"{what} at step {place + 1}", browser.texts(what), [line.strip() for line in lines(journal, place)])
    if len(journal.window) == journal.count:
        before, behind = (f"step {at + 1}" if at is not None else "none" for at in own_steps(journal, place))
        same("#process", browser.texts("#process"), [f"P{journal.entries[place].pid}: {before} before, {behind} after"])


def check_panel(browser, journal, draw):
    """What the panel says of the whole, and of some steps that are told; of others it says that these are not."""
    browser.choose(None)
    first, end, whole = journal.window.start, journal.window.stop, browser.value("document.getElementById('panel').innerText")
    is_part = end - first < journal.count
    told = f"Steps {first + 1} to {end} are told, and of the others those that bear on them." if is_part else ""
    assert browser.texts("#told") == [told] and not JUNK.search(whole), (told, whole)
    same("the longest waits", browser.texts("#longest td"), [*longest_cells(journal)])
    if not is_part:
        same("deadlocks", browser.texts("#stalls li"), deadlock_lines(journal))
    inside, outside = sorted(journal.window), sorted(journal.told - {*journal.window})
    drawn = [inside[draw(len(inside))] for _ in range(6)]
    for place in [*inside[:2], *inside[-2:], *outside[:: len(outside) // 8 + 1], *journal.vain, *drawn]:
        check_step(browser, journal, place)
    for place in sorted({*range(journal.count)} - journal.told)[:3]:
        shown = browser.title()
        browser.choose(place)
        same("not told", [*browser.texts("#none"), browser.title()], [f"Step {place + 1} is not told.", shown])
    for place in inside[-3:]:
        following = own_steps(journal, place)[1]
        browser.value(f"page.choose({place}); page.keys.J()")
        # those between in these blocks may be its own
        between = [at for at in range(place + 1, following or place) if at // BLOCK in (place // BLOCK, following // BLOCK)]
        is_known = following is not None and journal.tells(*between, following)
        said, at = ("", following) if is_known else ("No such step is told.", place)
        same(f"J at step {place + 1}", [*browser.texts("#none"), browser.title().split(" of ")[0]], [said, f"Step {at + 1}"])
    browser.value("page.choose(null)")
    same("what is chosen", [*browser.texts("#none"), browser.title()], ["", "The whole"])


def check_edges(browser, count, work):
    """Journals of as many steps as blocks have, with one more or less; and values that lie in a port for a block and more, so
    that one end is out of view."""
    cases = [(f"{total} steps", RandomJournal(total, total).text(), []) for total in (1, BLOCK - 1, BLOCK, BLOCK + 1, 2 * BLOCK)]
    cases.append(("a burst", JOURNALS["burst"], [(first, 40) for first in range(0, 151, 30)]))
    for name, text, views in cases:
        check_journal(browser, count, work / "edges.html", text, name, views, random.Random(name).randrange)


# ---- whether this test would notice

# a pipe; workers; values that lie long in a port
JOURNALS = {
    "pipe": "chanhub journal 2\nprocs 4\n0 make 0\n0 make 2\n0 make 0\n" + "".join(
        f"1 recv 1\n0 send 1 {n}\n1 send 2 {n}\n2 recv 2\n2 send 3 {n}\n3 recv 3\n" for n in range(100, 140)
    ) + "0 recv 3\n1 recv 1\n2 send 3 7\n0 exit\n",
    "workers": "chanhub journal 2\nprocs 4\n0 make 2\n0 make 0\n0 make 0\n3 recv 3\n" + "".join(
        f"0 send 1 {n}\n1 recv 1\n1 send 2 {n}\n0 send 1 {n + 1}\n2 recv 2\n1 recv 1\n2 recv 2\n1 send 2 {n + 1}\n"
        for n in range(100, 130)) + "2 recv 1\n1 recv 1\n0 send 3 7\n3 recv 1\n0 recv 2\n",
    "burst": "chanhub journal 1\nprocs 2\n0 make 100\n" + "".join(f"0 send 1 {n}\n" for n in range(100)) + "1 recv 1\n" * 90,
    "left": ROWS["left"],
}


def check_notices(browser, count, work):
    """Each of these wrong data makes the shapes of some window differ from those expected."""
    path, text, journal = work / "wrong.html", page_of(JOURNALS["workers"]), Journal(JOURNALS["workers"])
    before, data, behind = re.fullmatch("(.*?<!--)(.*?)(-->.*)", text, re.DOTALL).groups()

    def check(data):
        path.write_text(before + data + behind)
        browser.open(path)
        for first in 0, 40, 2 * BLOCK, 170, journal.count - 60:
            check_view(browser, journal, first, 60)

    count.run("the right data are right", lambda: check(data))
    for row in ROWS["wrong"]:
        new = row["new"] if "new" in row else lambda found: str(int(found[0]) + row["by"])
        wrong = re.sub(row["old"], new, data, count=1)
        count.test(f"it is noticed that {row['name']}", wrong != data and fails(lambda: check(wrong)))
    del browser.errors[:]


# ---- the data


def data_of(text, window=None):
    lines = []
    page.Data(text.splitlines(), lines.append, window)
    return "".join(lines)


def counted(letters, numbers):
    return "".join(f"{letter}{number}" for letter, number in zip(letters, numbers) if number)


def sketch_of(journal, summed, at):
    """The sketch of a block's steps, counted step by step."""
    text, (first, until) = "~", summed.blocks[at]
    for lane in range(journal.procs + 1):
        own = [summed.of_block(name, lane, at) for name in ("waited", "asked", "troubles")]
        since = summed.tables["open", lane][at + 1]
        own.append(0 if since == NEVER else until - since)
        text += f"P{lane}{counted('wato', own)}" if any(own) else ""
    for port in sorted({*journal.moved["s"], *journal.moved["r"]}):
        sent, received = ([one.by for one in journal.moved[side][port]] for side in "sr")
        steps = {by for by in [*sent, *received] if first <= by < until}
        held = [sum(by <= step for by in sent) - sum(by <= step for by in received) for step in steps]
        numbers = [max(held, default=0), *(sum(first <= by < until for by in way) for way in (sent, received))]
        text += f"p{port}{counted('msg', numbers)}" if steps else ""
    return text


def check_sketches(text, journal):
    told, summed = [line for line in data_of(text).splitlines() if line.startswith("~")], Summed(journal)
    same("how many sketches", len(told), len(summed.blocks))
    for at, line in enumerate(told):
        same("a sketch", line, sketch_of(journal, summed, at))


def check_data(browser, journal):
    """What the page sums up: before each block, and of the whole."""
    summed, lanes, width = Summed(journal), range(journal.procs + 1), len(journal.ports)
    tables, whole = ["waited", "asked", "troubles", "open", "sent", "got", "most"], ["rooms", "lives", "stalls", "waits", "asks"]
    told = browser.value(f"Object.fromEntries({json.dumps(tables + whole)}.map((name) => [name, [...page.journal[name]]]))")
    for at, until in enumerate(summed.ends):
        wanted = {name: [summed.tables[name, lane][at] for lane in lanes] for name in tables[:4]}
        for name, side in (("sent", "s"), ("got", "r")):
            wanted[name] = [sum(one.by < until for one in journal.moved[side][port]) for port in range(width)]
        for name, counts in wanted.items():
            same(f"{name} before step {until + 1}", told[name][at * len(counts) : (at + 1) * len(counts)], counts)
    for port, several in summed.most.items():
        for at, most in enumerate(several):
            same(f"most of port {port} in block {at}", told["most"][(at + 1) * width + port], most)
    same("rooms", told["rooms"], [journal.ports[port].room if port in summed.most else 0 for port in range(1, width)])
    lives = [[[life["begun"], life["exited"]] for life in own] for own in told["lives"]]
    same("lives", lives[: journal.procs], [journal.lives[pid] for pid in range(journal.procs)])
    same("stalls", told["stalls"], [*journal.vain])
    waits, asks = ([sum(of(one) for one in journal.entries if journal.lane(one) == lane) for lane in lanes]
                   for of in (lambda one: one.waited(journal.count), lambda one: 1))
    shown = journal.procs + (asks[-1] > 0)
    same("waits", told["waits"], waits[:shown])
    same("asks", told["asks"], asks[:shown])


def check_bytes(count, work):
    words = [sys.executable, str(ROOT / "benches" / "make_journals.py"), str(work), "10000"]
    subprocess.run(words, check=True, stdout=subprocess.DEVNULL)
    for name in "hand_overs", "bursts", "selects", "bytes":
        text = (work / name).read_text()
        size = len(data_of(text)) / (text.count("\n") - 2)
        count.test(f"{name} has {size:.1f} bytes a step", size <= MOST_BYTES)


# ---- search, following, links, mouse and keys


def check_search(browser, journal):
    ports_of = lambda one: {case[1] for case in one.cases} | {picture.port_of(one)} | {
        int(it) for it in one.line.split()[2:3] if one.word in ("close", "reopen")}
    values = [value_of(one) for one in journal.entries if value_of(one)]
    value = values[len(values) // 2] if values else "17"
    queries = {
        "P1": lambda one: one.pid == 1,
        "port 2": lambda one: 2 in ports_of(one),
        "=" + value: lambda one: value_of(one) == value,
        "stalled": lambda one: one.end == "stalled",
        "deadlocks": lambda one: one.place in journal.vain,
        "P1 before 60": lambda one: one.pid == 1 and one.place < 59,
        "cancelled": lambda one: one.end == "cancelled",
        "step 60": lambda one: one.place == 59,
        "waited": lambda one: one.end is None or one.by > one.place,
        "waited >20": lambda one: one.waited(journal.count) > 20,
        "to the end": lambda one: one.end is None,
        "P0 port 1": lambda one: one.pid == 0 and 1 in ports_of(one),
        "select": lambda one: one.line.split()[1] == "select",
    }
    for (words, test), told in zip(queries.items(), browser.found(*queries, "")):
        same(words, told, [one.place for one in journal.entries if journal.tells(one.place) and test(one)])


def check_ways(browser, journal):
    """The longest ways, and some others."""
    wanted = ways(journal)
    places = sorted(wanted, key=lambda place: (-len(wanted[place]), place))
    places = places[:3] + places[3 :: len(places) // 4 + 1]
    for place, told in zip(places, browser.found(*(f"way {place + 1}" for place in places))):
        same(f"the way of step {place + 1}", sorted(told), sorted(wanted[place]))


def check_rows(browser, count, work, row):
    """A page of tests/pages.toml."""
    text = JOURNALS.get(row["journal"], row["journal"])
    path, journal = work / "rows.html", Journal(text)
    open_page(browser, text, path)
    for verb, *words in row["steps"]:
        if verb == "is":
            name, script, wanted = words
            for _ in range(20):  # on a busy machine it may take a while to be so
                told = browser.value(script)
                if told == wanted:
                    break
                browser.settle()
            count.same(f"{row['name']}: {name}", told, wanted)
        elif verb == "open":
            browser.open(path, *words)
        elif verb == "shapes":
            count.run(f"{row['name']}: shapes", lambda: check_view(browser, journal, *words))
        else:
            getattr(browser, verb)(*words)


# ---- bytes, contrasts, a million


def check_nasty(browser, count, work):
    """Bytes that HTML would take for its own."""
    values = ["#" + text.encode().hex() for text in ROWS["nasty"]] + ["#ff00", "#", "#c328", "18446744073709551615"]
    text = "chanhub journal 2\nprocs 2\n0 make 0\n" + "".join(f"0 send 1 {value}\n1 recv 1\n" for value in values)
    name = "a <b> & 'c' %41#"
    open_page(browser, text, work / f"{name}.html")
    count.same("the page's name", browser.value("document.title"), re.sub(r"\W", "_", name))
    for place, value in enumerate(values):
        both = [1 + 2 * place, 2 + 2 * place]
        for step in both:
            browser.choose(step)
            told = browser.value("valueAndLine()")
            count.same(f"value {value} at step {step + 1}, and its line", told, [readable(value), text.splitlines()[2 + step]])
        count.same(f"search for {value}", browser.found("=" + value), [both])
    count.same("nothing of a value is taken for HTML", browser.texts("#step img, #step script, h1 b"), [])
    count.same("a part of bytes is found", browser.found("=</script>"), [[1, 2]])


def check_contrasts(browser, count, work):
    papers = []
    open_page(browser, JOURNALS["pipe"], work / "pipe.html")
    for theme in "light", "dark":
        if theme == "dark":
            browser.value("document.getElementById('theme').click()")
        for what, place in ("whole", "null"), ("step", "page.journal.stalls.at(-1) ?? 9"):
            browser.value(f"page.choose({place}); page.paint()")
            count.same(f"contrasts on {theme}, {what}", browser.value("lowContrasts()"), [])
        papers.append(browser.value("getComputedStyle(document.body).backgroundColor"))
    count.same("the other light is another one", papers, ["rgb(255, 255, 255)", "rgb(22, 24, 28)"])


EXCHANGES = "0s1:7\n1r1;0g0@1;1:0;1s0;1:0\n"  # process 1 receives what process 0 has sent, who waits for that


def million_data(steps):
    """So many steps, a multiple of those of a block."""
    half = BLOCK // 2
    first = "0m0;0m1\n0m4;0m2\n" + EXCHANGES * (half - 1) + f"~P0w{half - 1}a{half + 1}P1a{half - 1}p1s{half - 1}g{half - 1}\n"
    others = EXCHANGES * half + f"~P0w{half}a{half}P1a{half}p1s{half}g{half}\n"
    return f"chanhub journal 1\nprocs 2\nsteps 1 {steps}\n" + first + others * (steps // BLOCK - 1)


def check_million(browser, count, work):
    few = "chanhub journal 1\nprocs 2\n0 make 0\n0 make 4\n" + "0 send 1 7\n1 recv 1\n" * (3 * BLOCK // 2 - 1)
    count.test("the data of a million steps are made as those of a few are", million_data(3 * BLOCK) == data_of(few))
    path = work / "million.html"
    path.write_text(page.joined(page.BEFORE) + million_data(MILLION) + page.joined(page.BETWEEN) + "\n" + page.joined(page.AFTER))
    browser.open(path)
    took = browser.seconds()
    count.test(f"a million steps are open after {took:.2f} s of the processor", took <= MOST_OPENING)
    for share in 1, 0.5, 0.1, 0.01, 0.001, 0.0001:
        before = browser.seconds()
        browser.value(f"page.view.show({MILLION * 0.3}, {MILLION * share}); page.paint()")
        took = browser.seconds() - before
        count.test(f"{share} of them are drawn in {took:.2f} s", took <= MOST_VIEW)
    grey, blue = (browser.value("coloursOfPage()")[name] for name in ("edge", "h1"))
    for share in 1, 0.02:
        browser.value(f"page.view.show(1000, {MILLION * share}); page.paint()")
        height, width = browser.value("[page.view.place.get(0).height - 2, page.view.width - 64]")
        runs = itertools.chain(*pixels_of(browser, "far"))
        lanes = sum(end - top for top, end, colour in runs if colour == grey and end <= 30 + height)
        whole = lanes / ((width if share < 1 else width - 44) * height * 1.2)
        count.test(f"process 0 asks in half of the steps, in {share} of them: {whole:.3f}", abs(whole - 0.5) < 0.02)
    browser.value("page.layOut()")
    waits = sum(end - top for runs in pixels_of(browser, "strip") for top, end, colour in runs if colour == blue) / WIDTH / 32
    count.test(f"the strip tells that a quarter waits: {waits:.3f}", abs(waits - 0.25) < 0.01)
    browser.value(f"page.view.show({MILLION * 0.25}, {MILLION * 0.5}); page.paint()")
    left, width = browser.value("(({ left, width }) => [left, width])(document.getElementById('window').getBoundingClientRect())")
    count.test("the strip tells what is in view", close((left / WIDTH, width / WIDTH), (0.25, 0.5), 0.01), (left, width))


def check_viewer(count):
    """The viewer is short, and the page in docs/pictures is the one that page.py makes."""
    kept = ROOT / "docs" / "pictures" / "stalling_pool.html"
    made, words = page_of(kept.with_suffix(".journal").read_text()), "tests/oracle/page.py docs/pictures/stalling_pool.journal"
    count.test(f"docs/pictures/{kept.name} is as {words} makes it", kept.read_text() == made)
    lines = [line for name in page.SCRIPTS for line in page.text_of(name).splitlines()]
    count.test(f"the viewer has {len(lines)} lines", len(lines) <= VIEWER_LINES)
    count.test("its lines are as wide as can be read", max(map(len, lines)) < VIEWER_WIDTH)


def main():
    if picture.browser() is None:
        print("0 passed, 0 failed, 1 skipped")
        sys.exit(77)
    words = sys.argv[1:]
    if words and not words[0].isdigit():
        TOOLS.append(words.pop(0))
    count = Count()
    check_viewer(count)
    with tempfile.TemporaryDirectory() as folder:
        browser, work = Browser(folder), pathlib.Path(folder)
        run = lambda check, *words: count.run(check.__name__, lambda: check(browser, count, work, *words))
        for seed in range(1, int(words[0]) + 1 if words else RANDOM + 1):
            check_random(browser, count, work, seed)
            check_random(browser, count, work, seed, third=True)
        for seed, total in LONG:
            check_random(browser, count, work, seed, total)
        run(check_columns)
        run(check_edges)
        count.same("errors in the console of right pages", browser.errors[:2], [])
        run(check_notices)
        run(check_contrasts)
        for row in ROWS["page"]:
            run(check_rows, row)
        run(check_nasty)
        count.run("bytes a step", lambda: check_bytes(count, work))
        browser.ask("Page.navigate", url="about:blank")
        run(check_million)
        count.same("errors in the console", browser.errors[:2], [])
        browser.end()
    return count.end()


if __name__ == "__main__":
    sys.exit(main())
