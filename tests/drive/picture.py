#!/usr/bin/env python3
"""picture.py TOOL: checks the pictures of the built chanhub_tool (TOOL), of the journals that story.py tells, and of windows
of them. What a picture has to show is worked out here, from the journal and from the events that tools/model.py tells of it,
and never from a picture. The pictures of docs/pictures are drawn again and compared; each of them is drawn with each
allocation refused, which needs a C compiler; pictures of the longest journal, in which many wait, have to come soon, and a
step costs as much however many wait, by valgrind where it is there, and the time of a whole picture grows with its steps and
not with their square; and Chromium, where it is there, is asked on white and on dark paper whether all of a picture is in
view, no text lies over another's box, over an arrow or beyond its own box, no tip of an arc that tells who waits for whom lies
under a box or a bar, and all contrasts are at least 3. The last line counts: 'N passed, M failed', and 'K skipped' for what is
not there."""
import collections
import itertools
import pathlib
import random
import re
import resource
import shutil
import subprocess
import sys
import tempfile
import xml.etree.ElementTree as xml

sys.dont_write_bytecode = True
from programs import JOURNALS, MINUTE as WAIT, ROOT, Count, busy_time, examples, table
from instructions import has_valgrind, instructions
from refusals import Refuser
from story import Program, journals, survives_refusals
import walk

SVG = "{http://www.w3.org/2000/svg}"
# after so many seconds a browser, or what is long, is taken to hang on a slow machine
LONG = 600
LAYERS = ["lane", "stall", "strip", "level", "whom", "arrow", "bar", "box"]
FULL = 12
# where lanes begin, and how much room a process has, how high its box is and how many steps a band has, by scale
TOP, STRIP, HUES = 90, 18, 8
SIZES = {14: (58, 36, 40), 36: (42, 20, 16), 60: (30, 14, 10)}

Held = collections.namedtuple("Held", "port first until count")


def output_of(words, given=b"", wait=WAIT):
    return subprocess.run(words, input=given, capture_output=True, timeout=wait, check=True).stdout


# ---- what a journal asks, and what the model tells of it


class Journal(walk.Journal):
    """A journal, with what a picture tells of it."""

    def __init__(self, text):
        self.lives = collections.defaultdict(lambda: [[None, None]])
        self.stalled, self.vain = [], {}  # who waits in vain, by step
        self.moved = {"s": collections.defaultdict(list), "r": collections.defaultdict(list)}
        super().__init__(text)
        self.left_waiting = [wait._replace(whom=None) for wait in self.waits(self.others(self.waiting.values()))]

    def take(self, entry, ended):
        if (entry.word, entry.end) == ("exit", "done"):
            self.lives[entry.pid][-1][1] = entry.place
        if (entry.word, entry.end) == ("start", "done"):
            self.lives[entry.asked].append([entry.place, None])
        for other in filter(lambda other: other.move, ended):
            self.moved[other.move.side][other.move.port].append(other)
        stalled = self.others(other for other in ended if other.end == "stalled")
        if stalled:
            self.stalled += stalled
            self.vain[entry.place] = list(self.waits(stalled))

    def others(self, entries):
        """Those that are not the clock's."""
        return [entry for entry in entries if entry.pid != self.clock]

    def held(self):
        """For each port that has room, in order, its values from each step at which one moves until the next such step."""
        for number, port in enumerate(self.ports):
            after = self.levels[number]
            for (step, count), until in zip(after.items(), [*list(after)[1:], None]):
                if port.room and count:
                    yield Held(number, step, until, count)

    def passages(self):
        """For each port the sends of the values that were received."""
        return [sent for port in sorted(self.moved["s"]) for sent in self.moved["s"][port] if sent.partner]


# ---- what a picture of some steps has to show


class Bands:
    """Which steps stand in which band."""

    def __init__(self, first, end):
        count = end - first
        self.first, self.end = first, end
        self.steps = 14 if count <= 14 else 36 if count <= 72 else 60
        self.count = -(-count // self.steps)
        self.lane, self.size, self.half = SIZES[self.steps]

    def y(self, band, pid, journal):
        """Where a process stands in a band."""
        height = self.lane * (journal.procs + 2) + STRIP * len(shown_ports(journal, self))
        return TOP + band * height + self.lane * (1 + min(pid, journal.procs))

    def band(self, place):
        return (place - self.first) // self.steps

    def has(self, place):
        return self.first <= place < self.end

    def between(self, since, until):
        """The bands of what goes on from one step until another, or to the end."""
        until = self.end if until is None else until
        if since >= self.end or until < self.first:
            return []
        return range(self.band(max(since, self.first)), self.band(min(until, self.end - 1)) + 1)


def title_of(journal, entry):
    end = "waits" if entry.end is None else f"{entry.pid} {journal.words(entry)}\nby step {entry.by + 1}"
    return f"step {entry.place + 1}\n{entry.line}\n{end}\n"


def moved_title(entry):
    return f"{entry.pid} {entry.end}\nasked at step {entry.place + 1} by step {entry.by + 1}\n"


def boxes(journal, bands):
    return [(bands.band(entry.place), title_of(journal, entry)) for entry in journal.entries[bands.first : bands.end]]


def bars(journal, bands):
    for entry in journal.entries:
        if entry.place < (bands.end if entry.end is None else entry.by):
            yield from ((band, title_of(journal, entry)) for band in bands.between(entry.place, entry.by))


def arrows(journal, bands):
    for sent in journal.passages():
        for band in sorted({bands.band(by) for by in (sent.by, sent.partner.by) if bands.has(by)}):
            yield band, f"port {sent.move.port} from\n{moved_title(sent)}to\n{moved_title(sent.partner)}"


def shown_ports(journal, bands):
    """The ports that hold a value in the window, each of which has a strip."""
    return sorted({held.port for held in journal.held() if bands.between(held.first, held.until)})


def strips(journal, bands):
    for band in range(bands.count):
        for port in shown_ports(journal, bands):
            yield band, f"port {port} has room for {journal.ports[port].room}\n"


def levels(journal, bands):
    for held in journal.held():
        until = "on" if held.until is None else f"until step {held.until + 1}"
        title = f"port {held.port} holds {held.count} of {journal.ports[held.port].room} from step {held.first + 1} {until}\n"
        yield from ((band, title) for band in bands.between(held.first, held.until))


def shown_case(entry):
    """The case that fired, or the only one; none for a select of which none fired."""
    if entry.fired or len(entry.cases) != 1:
        return entry.fired
    return None if (entry.end or "").startswith(("default", "fault")) else entry.cases[0]


def is_side(side):
    return lambda entry, end: (shown_case(entry) or " ")[0] == side


def is_done(word):
    return lambda entry, end: (entry.word, end) == (word, "done")


# what the legend tells, and of which entries, by them and by what they were told
MARKS = {
    "sends": is_side("s"),
    "receives": is_side("r"),
    "makes a port": lambda entry, end: end.startswith("made"),
    "closes a port": is_done("close"),
    "reopens a port": is_done("reopen"),
    "no case fired": lambda entry, end: (
        entry.word == "call" and len(entry.cases) != 1 and end.split(" ")[0] not in ("case", "default", "fault")),
    "default taken": lambda entry, end: end == "default",
    "cancels a call": is_done("cancel"),
    "starts a process": is_done("start"),
    "refused: fault 3": lambda entry, end: end.startswith("fault"),
    "still waits": lambda entry, end: end == "",
    "closed and empty": lambda entry, end: end.endswith("drained"),
    "was cancelled": lambda entry, end: end in ("cancelled", "timed out"),
    "stalls or fails": lambda entry, end: end == "stalled" or end.endswith("closed"),
}


def mover_words(mover):
    return f"P{mover.pid} at step {mover.by + 1}" if mover else "nobody"


def waits(journal, bands):
    """A row for each case of those whom the last step that stalls anyone stalls, and of those who wait in the end, where that is
    shown; and at which step."""
    stalls = [by for by in journal.vain if bands.has(by)]
    rows = [(stalls[-1], wait) for wait in journal.vain[stalls[-1]]] if stalls else []
    rows += [(bands.end, wait) for wait in journal.left_waiting] if bands.end >= len(journal.entries) else []
    for step, wait in rows:
        pid, does = wait.entry.pid, "send on" if wait.side == "s" else "receive from"
        told = f"P{pid} has waited since step {wait.entry.place + 1} to {does} port {wait.port}; "
        told += f"last sent there by {mover_words(wait.sender)}, last received by {mover_words(wait.receiver)}"
        told += "; all who received there have left" * wait.is_left + ". "
        yield told + ("" if wait.whom is None else f"Perhaps it waits for P{wait.whom}. "), step, pid, wait.whom


def outside(journal, bands):
    """A row for each process but the clock that is there in the end and does not wait, where calls of others wait then, and that
    is shown."""
    last = {entry.pid: f"last at step {entry.place + 1}" for entry in journal.entries}
    if journal.others(journal.waiting.values()) and bands.end >= len(journal.entries):
        for pid in sorted({*range(journal.procs)} - {journal.clock, *journal.waiting, *journal.exits}):
            yield f"P{pid} is outside the hub, {last.get(pid, 'never called')}."


def whoms(journal, bands):
    """Who waits for whom of those who were stalled."""
    for _, step, pid, other in waits(journal, bands):
        if other is not None and bands.has(step):
            yield bands.band(step), f"P{pid} perhaps waits for P{other}", step, pid, other


def legend(journal, bands):
    """What the legend has to tell, in order."""
    shown = journal.entries[bands.first : bands.end]
    yield from (words for words, holds in MARKS.items() if any(holds(entry, journal.words(entry) or "") for entry in shown))
    if any(bars(journal, bands)):
        yield "waits, then ends"
    if any(sent.by < bands.end and bands.first <= sent.partner.by for sent in journal.passages()):
        yield "value on its way"
    if any(stalls(journal, bands)):
        yield "deadlock"
    if any(levels(journal, bands)):
        yield "values in a port"


def stalls(journal, bands):
    for entry in journal.stalled:
        if bands.has(entry.by):
            told = f"step {entry.by + 1} stalls process {entry.pid}, which has waited since step {entry.place + 1}\n"
            yield bands.band(entry.by), told


# ---- what it shows


def shapes(root, shape):
    groups = (group for group in root.findall(SVG + "g") if group.get("class").split()[0] == shape)
    return [(group, group.find(SVG + "title").text) for group in groups]


def number(element, name):
    return int(element.get(name))


def numbers(path):
    return [int(digits) for digits in re.findall(r"\d+", path.get("d"))]


def layers_agree(root):
    """In each band stalls lie on the lanes, arrows on them, bars on these, and boxes on top."""
    last = 0
    for element in root:
        shape = element.get("class", "").split(" ")[0]
        if shape == "tick":
            last = 0
        if shape in LAYERS:
            assert shape == "lane" or last <= LAYERS.index(shape), f"{shape} lies above {LAYERS[last]}"
            last = LAYERS.index(shape)


def legend_agrees(root, wanted):
    """The legend has a sign for each of these, six in a row, and nothing else."""
    signs = [group for group in root.findall(SVG + "g") if group.get("class") == "sign"]
    told = [sign.find(SVG + "text").text for sign in signs]
    assert told == list(wanted), f"the legend tells: {told}"
    for place, sign in enumerate(signs):
        assert sign.get("transform") == f"translate({14 + 126 * (place % 6)} {44 + 18 * (place // 6)})", told[place]


def by_band(wanted):
    return sorted(wanted, key=lambda pair: pair[0])


def columns_of(root):
    """Where each step stands."""
    boxes = ((int(title.split()[1]) - 1, group.find(SVG + "rect")) for group, title in shapes(root, "box"))
    return {place: number(rect, "x") + number(rect, "width") // 2 for place, rect in boxes}


def column(place, band, bands, columns, edges):
    """Where a step stands in a band: at an edge where the band does not have it."""
    if place is None or place >= bands.end or bands.band(place) > band:
        return edges[1]
    return columns[place] if bands.has(place) and bands.band(place) == band else edges[0]


def lanes_agree(root, journal, bands):
    """Each lane goes from the left edge of its band, or from the column of the step that started its process again, to the column
    of the exit of its process, or to the right edge; a process that is not there has none, and no name. That of the clock is
    named so, and who points at it is told its number."""
    lanes = [numbers(path) for path in root.iter(SVG + "path") if path.get("class") == "lane"]
    columns, wanted, names = columns_of(root), [], []
    for band in range(bands.count):
        first = bands.first + band * bands.steps
        end = min(bands.end, first + bands.steps)
        edges = 60, 60 + 2 * bands.half * (end - first)
        for pid, begun, exited in ((pid, *life) for pid in range(journal.procs) for life in journal.lives[pid]):
            if (exited is None or exited >= first) and (begun is None or begun < end):
                y = bands.y(band, pid, journal)
                begin = edges[0] if begun is None else column(begun, band, bands, columns, edges)
                wanted.append([begin, y, column(exited, band, bands, columns, edges), y])
                names.append(["clock", journal.name(pid)] if pid == journal.clock else [journal.name(pid)])
    assert lanes == wanted, f"lanes: {lanes} and not {wanted}"
    told = [[*name.itertext()] for name in root.findall(SVG + "text") if name.get("class") == "name"]
    assert told == names, f"names: {told}"


def levels_agree(root, journal, bands):
    """Each level stands on the floor of its strip, between the columns of its steps, and is as high as what the port holds of
    what it has room for; what stays is told behind it."""
    columns = columns_of(root)
    strips = {}
    for place, (group, title) in enumerate(shapes(root, "strip")):
        left, floor, right, _, full, _ = numbers(group.find(SVG + "path"))
        strips[place // len(shown_ports(journal, bands)), int(title.split()[1])] = left, right, floor
        assert floor - full == FULL, title
    wanted = by_band((band, held) for held in journal.held() for band in bands.between(held.first, held.until))
    for (group, title), (band, held) in zip(shapes(root, "level"), wanted):
        left, right, floor = strips[band, held.port]
        rect = group.find(SVG + "rect")
        ends = [column(place, band, bands, columns, (left, right)) for place in (held.first, held.until)]
        height = -(-held.count * FULL // journal.ports[held.port].room)
        shown = [number(rect, name) for name in ("x", "width", "y", "height")]
        assert shown == [ends[0], ends[1] - ends[0], floor - height, height], title
        stays = [text.text for text in group.iter(SVG + "text")]
        assert stays == ([f"{held.count} stay"] if held.until is None else []), title


def arrows_agree(root, wanted, journal, bands):
    """Each goes from the side of its sender that faces the receiver to the side of this one that faces the sender, as an arc
    above the lane where both are one; in the columns of their steps where its band has them, and else with no mark or no tip."""
    columns = columns_of(root)
    for (group, title), (band, _) in zip(shapes(root, "arrow"), by_band(wanted)):
        ends = numbers(group.find(SVG + "path"))
        sent, received = (int(pid) for pid in re.findall(r"^(\d+) case", title, re.MULTILINE))
        heights = [bands.y(band, pid, journal) for pid in (sent, received)]
        side = bands.size // 2 * ((sent < received) - (received < sent))
        if sent == received:
            upper = heights[0] - bands.size // 2
            assert ends[1::2] == [upper, upper - (bands.lane - bands.size - 4), upper], title
            assert ends[2] == (ends[0] + ends[4]) // 2, title
        else:
            assert ends[1::2] == [heights[0] + side, heights[1] - side], title
        steps = [int(step) - 1 for step in re.findall(r"by step (\d+)", title)]
        inside = [bands.has(step) and bands.band(step) == band for step in steps]
        for x, step, known in zip((ends[0], ends[-2]), steps, inside):
            assert not known or x == columns[step], title
        port = int(title.split()[1])
        ends = [word for word, known in zip(("comes", "leaves"), inside) if not known]
        assert group.get("class").split() == ["arrow", f"h{port % HUES}", *ends], title


def whoms_agree(root, wanted, journal, bands):
    """Each stands on the right of the column of its step, from the lane of the one who waits to above the box of the other;
    upwards it goes out twice as far."""
    columns = columns_of(root)
    for (group, title), (band, _, step, pid, other) in zip(shapes(root, "whom"), by_band(wanted)):
        x, y, to = columns[step] + bands.half, bands.y(band, pid, journal), bands.y(band, other, journal) - bands.size // 2 - 5
        far = x + (24 if pid < other else 48)
        assert numbers(group.find(SVG + "path")) == [x, y, far, y, far, to, x, to], title


def port_of(entry):
    """The port whose mark its box has, if it has one."""
    end, case = entry.end or "", shown_case(entry)
    if end.startswith("fault"):
        return None
    if entry.word in ("close", "reopen"):
        return int(entry.line.split()[2])
    return case[1] if case else int(end.split()[1]) if end.startswith("made") else None


def marks_agree(root, journal):
    """Each box of a port has its mark; a select shows the cases that it offered, and of these the one that fired."""
    for group, title in shapes(root, "box"):
        entry = journal.entries[int(title.split()[1]) - 1]
        port = port_of(entry)
        marks = [mark.get("href") for mark in group.findall(SVG + "use")]
        assert marks == ([] if port is None else [f"#k{port % HUES}"]), f"{title}: {marks}"
        offers = [text for text in group.findall(SVG + "text") if text.get("class") == "cases"]
        if root.get("class") != "wide" or len(entry.cases) < 2:
            assert not offers, title
            continue
        told = "".join(offers[0].itertext()).split()
        cases = [f"{case[0]}{case[1]}" for case in entry.cases]
        assert told == (cases if len(cases) <= 4 else [str(len(cases)), "cases"]), f"{title}: {told}"
        fired = [text.text for text in offers[0].iter(SVG + "tspan")]
        assert fired == (["%s%d" % entry.fired[:2]] if entry.fired and len(cases) <= 4 else []), f"{title}: {fired}"


# what the class of a shape says of the end of its entry, by the last word of that
ENDINGS = {
    "waits": "open",
    "drained": "drained",
    "closed": "trouble",
    "stalled": "trouble",
    "cancelled": "cancelled",
    "out": "cancelled",  # as timed out
}


def classes_agree(root, journal):
    """The class of a box or a bar says how its entry ended, if that is no matter of course."""
    for group, title in shapes(root, "box") + shapes(root, "bar"):
        last = (journal.words(journal.entries[int(title.split()[1]) - 1]) or "waits").split()[-1]
        told = [word for word in group.get("class").split() if word in ENDINGS.values()]
        assert told == [*filter(None, [ENDINGS.get(last)])], f"{title}: {told}"


def places_agree(root):
    """Boxes of one step have one column, of one process one height in a band, and a value handed over goes straight down."""
    columns, heights = {}, collections.defaultdict(set)
    for group, title in shapes(root, "box"):
        step, pid = title.split("\n")[0], title.split("\n")[1].split()[0]
        rect = group.find(SVG + "rect")
        assert columns.setdefault(step, rect.get("x")) == rect.get("x"), step
        heights[pid].add(number(rect, "y"))
    for group, title in shapes(root, "arrow"):
        steps = re.findall(r"by step (\d+)", title)
        ends = numbers(group.find(SVG + "path"))
        assert (steps[0] == steps[1]) <= (ends[0] == ends[-2]), title
    for rect in root.findall(f"{SVG}g/{SVG}rect"):
        for place, size in ("x", "width"), ("y", "height"):
            begin = int(rect.get(place, 0))
            assert 0 <= begin and begin + number(rect, size) <= number(root, size), "a box is outside"


def same(shape, shown, wanted):
    """The titles of a shape in the order of bands, and in a band in that in which they are wanted."""
    wanted = [title for _, title, *_ in by_band(wanted)]
    shown = [title for _, title in shown]
    others = ((one, other) for one, other in itertools.zip_longest(shown, wanted) if one != other)
    assert shown == wanted, f"{shape}: {len(shown)} shown, {len(wanted)} wanted; first other: {next(others)}"


SHAPES = {"box": boxes, "bar": bars, "arrow": arrows, "stall": stalls, "strip": strips, "level": levels, "whom": whoms}


def check_picture(picture, journal, first, end):
    picture.decode("ascii")
    if shutil.which("xmllint"):
        output_of(["xmllint", "--noout", "-"], picture)
    root = xml.fromstring(picture)
    allowed = "svg title style defs marker rect circle path text tspan use g".split()
    assert all(element.tag[len(SVG) :] in allowed for element in root.iter()), "an element of another kind"
    bands = Bands(first, end)
    for shape, wanted in SHAPES.items():
        same(shape, shapes(root, shape), wanted(journal, bands))
    layers_agree(root)
    arrows_agree(root, arrows(journal, bands), journal, bands)
    whoms_agree(root, whoms(journal, bands), journal, bands)
    marks_agree(root, journal)
    classes_agree(root, journal)
    legend_agrees(root, legend(journal, bands))
    is_dead = any(stalls(journal, bands))
    for kind, wanted in (("waits", [row for row, *_ in waits(journal, bands)]), ("outside", [*outside(journal, bands)]),
                         ("dead", ["deadlock: everyone who is left waits"] * is_dead)):
        rows = [row.text for row in root.iter(SVG + "tspan") if row.get("class") == kind]
        assert rows == wanted, f"rows of {kind}: {rows}"
    lanes_agree(root, journal, bands)
    levels_agree(root, journal, bands)
    places_agree(root)


# ---- what a browser shows

PAGE = ROOT / "tests" / "drive" / "picture.html"
HEADLESS = "--headless", "--no-sandbox", "--disable-gpu"


def browser():
    return next(filter(None, map(shutil.which, ("chromium", "chromium-browser", "google-chrome"))), None)


def check_views(count, pictures):
    """Has the browser lay out all of these pictures, by name, at once, on white and on dark paper."""
    sections = "".join(f'<section id="{name}">{picture.decode()}</section>' for name, picture in pictures.items())
    for scheme, more in ("white", []), ("dark", ["--blink-settings=preferredColorScheme=0"]):
        with tempfile.TemporaryDirectory() as work:
            page = pathlib.Path(work) / "page.html"
            page.write_text(PAGE.read_text().replace("PICTURES", sections))
            words = [browser(), *HEADLESS, f"--user-data-dir={work}/user", *more, "--dump-dom", page.as_uri()]
            shown = output_of(words, wait=LONG).decode()
        for name in pictures:
            faults = re.search(f"faults of {re.escape(name)}: ([^<]*)<", shown)
            count.test(f"{name} on {scheme} paper in a browser: {faults and faults[1]}", faults is not None and faults[1] == "")


# ---- refused allocations


def check_refusals(count, program, journals):
    with tempfile.TemporaryDirectory() as work:
        refuser = Refuser(work)
        for path in journals:
            survives = survives_refusals(Program(program), ["picture"], path.read_bytes(), refuser)
            count.test(f"{path.name} with refused allocations", survives)


# ---- what it costs

# of so many entries a journal has, that are no exits, at most
MOST_ENTRIES = 1000000
# how long the picture of such a journal may take, in seconds of the processor: how long it waits for one is another matter
MOST_SECONDS = 20
# how many steps a journal has whose instructions are counted, and another one twice as many
FEW = 2000
# of so many steps a whole picture is drawn, and of four times as many; how much longer that may take at most; and how often it is
# measured until it does, since a machine that does other things is slower at times
MANY, MOST_GROWTH, MEASURES = 20000, 8, 5
# how much more a step may cost where all others wait, or where there are many ports
MOST_FACTOR = 2


def busy_journal(steps, waiting, ports):
    """A journal of so many entries. The last of 64 processes makes a port on which nobody sends, and these ports, which have
    room; so many processes then wait to receive by 16 cases; and it sends and receives on its ports, one after the other."""
    lines = ["63 make 0"] * 16 + ["63 make 4"] * ports
    lines += [f"{pid} select 0 " + " ".join(f"r{1 + (pid + case) % 16}" for case in range(16)) for pid in range(waiting)]
    moves = range((steps - len(lines)) // 2)
    lines += [f"63 {word} {17 + move % ports}{value}" for move in moves for word, value in (("send", " 7"), ("recv", ""))]
    return ("chanhub journal 2\nprocs 64\n" + "".join(line + "\n" for line in lines)).encode(), len(lines)


def limit_time():
    """Has the system end this process once it has had the processor for so long."""
    resource.setrlimit(resource.RLIMIT_CPU, (MOST_SECONDS, MOST_SECONDS))


def is_soon(program, journal, steps, first):
    """Whether the picture of this journal, with all who wait at its end, is soon there: of 1,000 steps, from this one on."""
    words = [program, "picture", str(first), str(first + 999)]
    picture = subprocess.run(words, input=journal, capture_output=True, timeout=LONG, check=True, preexec_fn=limit_time).stdout
    waits = picture.count(b'<tspan class="waits"')
    assert waits == (63 * 16 if first + 999 == steps else 0), "those who wait at the end are others"


def step_cost(program, waiting, ports):
    """How many instructions a step more costs, in a picture of the last one."""
    counts = []
    for size in FEW, 2 * FEW:
        journal, steps = busy_journal(size, waiting, ports)
        with tempfile.NamedTemporaryFile() as file:
            pathlib.Path(file.name).write_bytes(journal)
            counts.append(instructions([program, "picture", str(steps), str(steps)], file.name))
    return (counts[1] - counts[0]) / FEW


def check_costs(count, program):
    """A step costs as much, however many wait, and however many ports there are."""
    if not has_valgrind():
        count.skip("instructions of pictures, since there is no valgrind")
        return
    alone = step_cost(program, 1, 1)
    for waiting, ports in (63, 1), (1, 48):
        cost = step_cost(program, waiting, ports)
        told = f"{cost:.0f} instructions a step where {waiting} wait and {ports} ports are busy, {alone:.0f} where one and one"
        count.test(told, cost <= MOST_FACTOR * alone)


def seconds(program, steps):
    """How long the processor takes for the whole picture of a journal of so many entries. The system knows that well, but only
    guesses how much of it was its own."""
    journal, end = busy_journal(steps, 1, 1)
    before = busy_time()
    subprocess.run([program, "picture", "1", str(end)], input=journal, stdout=subprocess.DEVNULL, timeout=LONG, check=True)
    return busy_time() - before


def check_growth(count, program):
    """Four times as many steps take some four times as long, and not their square."""
    for _ in range(MEASURES):
        few, many = seconds(program, MANY), seconds(program, 4 * MANY)
        if many <= MOST_GROWTH * few:
            break
    count.test(f"{4 * MANY} steps are drawn in {many:.2f} s, and {MANY} in {few:.2f} s", many <= MOST_GROWTH * few)


def check_times(count, program):
    journal, steps = busy_journal(MOST_ENTRIES, 63, 1)
    for where, first in (("its beginning", 1), ("its middle", steps // 2), ("its end", steps - 999)):
        count.run(f"{where} of the longest journal, of 63 who wait", lambda: is_soon(program, journal, steps, first))


# ---- all of it


def check_left(count, program):
    """At the stall, and where calls wait in the end since process 3 does not exit."""
    left = table("pages")["left"]
    rows = {"all who received have left": left, "they have left, and nobody is stalled": left.removesuffix("3 exit\n")}
    for name, text in rows.items():
        check_journal(count, program, name, text.encode())
        journal = Journal(text)
        told = [row for row, *_ in waits(journal, Bands(0, len(journal.entries))) if "have left" in row]
        begins = [row.startswith("P0 has waited since step 16 to send on port 1;") for row in told]
        count.test(f"{name}: in one row", begins == [True], told)


def check_journal(count, program, name, text, by_windows=True):
    """The whole picture, and two windows of it."""
    journal = Journal(text.decode())
    steps = len(journal.entries)
    count.run(name, lambda: check_picture(output_of([program, "picture"], text), journal, 0, steps))
    below = random.Random(name).randrange
    for _ in range(2 if steps and by_windows else 0):
        first = below(steps)
        end = first + 1 + below(steps - first)
        words = [program, "picture", str(first + 1), str(end)]
        count.run(f"{name}, steps {words[2]} to {words[3]}", lambda: check_picture(output_of(words, text), journal, first, end))


def check_document(count, program, path):
    picture = path.with_suffix(".svg")

    def check():
        assert picture.read_bytes() == output_of([program, "picture"], path.read_bytes()), "the picture is another"

    count.run(str(picture.relative_to(ROOT)), check)


def main():
    program = str(pathlib.Path(sys.argv[1]).resolve())
    count = Count()
    documents = sorted((ROOT / "docs" / "pictures").glob("*.journal"))
    rows = {row["name"]: row["journal"].encode() for row in table("stories")["story"]}
    rows |= {path.name: path.read_bytes() for path in documents}
    for name, text, by_windows in journals():
        check_journal(count, program, name, text.encode(), by_windows)
    for name, text in rows.items():
        check_journal(count, program, name, text)
    for path in documents:
        check_document(count, program, path)
    check_left(count, program)
    check_refusals(count, program, documents)
    check_times(count, program)
    check_growth(count, program)
    check_costs(count, program)
    if browser():
        rows |= {path.name: path.read_bytes() for path in examples(JOURNALS)}
        check_views(count, {name: output_of([program, "picture"], text) for name, text in rows.items()})
    else:
        count.skip("pictures in a browser, since there is no Chromium")
    return count.end()


if __name__ == "__main__":
    sys.exit(main())
