#!/usr/bin/env python3
"""viewers.py TOOL: has the built chanhub_tool (TOOL) write sequence diagrams for Mermaid and traces in Chrome's format of the
examples, of random journals and of long ones, and compares them with a second reading of docs/FORMATS.md, "Diagrams and traces",
by the events of model.py. Looks at each text by itself too: at the lines of a diagram by Mermaid's grammar, and at the events of
a trace by the rules of their format. Runs the rows of tests/viewers.toml, which have data of pages too, and all with each
allocation refused, which needs a C compiler, and pages to files without room for them. Pages are compared further by
page_test.py. The last line counts: 'N passed, M failed'."""
import collections
import json
import re
import sys

sys.dont_write_bytecode = True
from programs import refused, table
from story import Program, begins_under_refusals, count, journals, survives_refusals
from refusals import Refuser
import page
import story_model
import walk

MOST_STEPS = 200
# a page of a million steps takes so many bytes of memory more than a picture of one of them at most, for the end of its story
MOST_OF_PAGE = 17_000_000
TOO_LONG = refused("too long for a diagram, which shows 200 steps at most")

# What a process was told, of which entry, by the entry at which place.
Told = collections.namedtuple("Told", "entry by words")


class Journal(walk.Journal):
    """A journal, and all that it tells."""

    def __init__(self, text):
        self.told = []
        super().__init__(text)

    def take(self, entry, ended):
        self.told += [Told(entry, entry.place, "parked")] * entry.is_parked
        self.told += [Told(other, entry.place, self.words(other)) for other in ended]


def asked_by(entry):
    return entry.line.split(" ", 1)[1]


def diagram(journal, first, last):
    """The sequence diagram of the steps from one to another, counted from 1."""
    lines = [f"participant P{pid}" + f" as {journal.name(pid)}" * (pid == journal.clock) for pid in range(journal.procs)]
    lines += [f"participant port{number} as port {number}" for number, port in enumerate(journal.ports) if port.room]
    for told in journal.told:
        if first - 1 <= told.by < last and told.entry.pid < journal.procs:
            lines += arrow_or_note(journal, told)
    return "".join(["sequenceDiagram\n", *(f"    {line}\n" for line in lines)]).replace("#", "#35;").encode()


def arrow_or_note(journal, told):
    entry, place = told.entry, told.by + 1
    if not entry.move or told.words == "parked":
        started = f",P{entry.asked}" if entry.word == "start" and told.words == "done" else ""
        return [f"Note over P{entry.pid}{started}: {place}: {asked_by(entry)}, {told.words}"]
    side, port, value = entry.move
    if journal.ports[port].room:
        ends = f"P{entry.pid}-)port{port}" if side == "s" else f"port{port}-->>P{entry.pid}"
        return [f"{ends}: {place}: {value}"]
    return [f"P{entry.partner.pid}->>P{entry.pid}: {place}: {value} on port {port}"] if side == "r" else []


def events_of(journal):
    """The events of a trace, in any order."""
    yield {"ph": "M", "pid": 1, "name": "process_name", "args": {"name": "processes"}}
    yield {"ph": "M", "pid": 2, "name": "process_name", "args": {"name": "ports"}}
    for pid in range(journal.procs):
        yield {"ph": "M", "pid": 1, "tid": pid, "name": "thread_name", "args": {"name": journal.name(pid)}}
    for entry in journal.entries:
        kind = "wait" if entry.end is None or entry.by > entry.place else "step"
        yield {"ph": "X", "pid": 1, "tid": entry.pid, "ts": entry.place + 1, "dur": entry.waited(len(journal.entries)) + 1, "cat": kind,
               "name": asked_by(entry), "args": {"told": journal.words(entry) or "parked"}}
        if entry.end in ("stalled", "cancelled") or entry.end == "done" and entry.word in ("close", "reopen", "start"):
            process = entry.asked if entry.word == "start" else entry.pid
            yield {"ph": "i", "s": "t", "pid": 1, "tid": process, "ts": entry.by + 1, "name": f"{asked_by(entry)}, {journal.words(entry)}"}
    numbers = collections.Counter()
    for entry in (told.entry for told in journal.told if told.words.endswith(" sent")):
        if entry.partner:
            assert entry.move.value == entry.partner.move.value
            port = f"port {entry.move.port}"
            both = {"pid": 1, "cat": port, "name": port, "id": numbers[port]}
            numbers[port] += 1
            yield {"ph": "s", "tid": entry.pid, "ts": entry.by + 1.25, **both}
            yield {"ph": "f", "bp": "e", "tid": entry.partner.pid, "ts": entry.partner.by + 1.75, **both}
    for number, after in journal.levels.items():
        if journal.ports[number].room:
            for place, held in after.items():
                yield {"ph": "C", "pid": 2, "ts": place + 1, "name": f"port {number}", "args": {"values": held}}


def in_any_order(events):
    return sorted(json.dumps(event, sort_keys=True) for event in events)


# Lines that Mermaid's grammar takes: a text behind a colon ends at `;` and at `#`, but for an entity.
PARTICIPANT = re.compile(r"    participant (?P<id>[A-Za-z]+\d+)(?: as [^#;]+)?")
TEXT = r": (?:[^#;]|#\d+;)+"
ARROW = re.compile(r"    (?P<id>[A-Za-z]+\d+)(?:->>|-->>|-\))(?P<to>[A-Za-z]+\d+)" + TEXT)
NOTE = re.compile(r"    Note over (?P<id>[A-Za-z]+\d+)(?:,(?P<to>[A-Za-z]+\d+))?" + TEXT)


def is_diagram(text):
    """Whether each line has a form that Mermaid knows, and speaks of participants that stand above."""
    first, *lines = text.decode("ascii").removesuffix("\n").split("\n")
    known = set()
    for line in lines:
        participant = PARTICIPANT.fullmatch(line)
        if participant:
            known.add(participant["id"])
            continue
        found = ARROW.fullmatch(line) or NOTE.fullmatch(line)
        if not found or not known.issuperset(filter(None, found.groupdict().values())):
            return False
    return first == "sequenceDiagram"


def nests(slices):
    """Whether of any two slices of a thread one stands within the other, or both apart."""
    still = []
    for begin, length in sorted((each["ts"], -each["dur"]) for each in slices):
        while still and still[-1] <= begin:
            still.pop()
        if still and still[-1] < begin - length:
            return False
        still.append(begin - length)
    return True


def flows_join(events, slices):
    """Whether each flow has one start and one end, in time, each within a slice of its thread."""
    starts = {(event["cat"], event["name"], event["id"]): event for event in events if event["ph"] == "s"}
    ends = {(event["cat"], event["name"], event["id"]): event for event in events if event["ph"] == "f"}
    many = sum(event["ph"] in ("s", "f") for event in events)
    stands = lambda event: any(each["ts"] <= event["ts"] < each["ts"] + each["dur"] for each in slices[event["tid"]])
    return (
        starts.keys() == ends.keys()
        and many == 2 * len(starts)
        and all(starts[flow]["ts"] < ends[flow]["ts"] and ends[flow]["bp"] == "e" for flow in starts)
        and all(map(stands, [*starts.values(), *ends.values()]))
    )


def counters_rise(events):
    """Whether the times of each counter rise, and its values are numbers that are not negative."""
    times = collections.defaultdict(list)
    for event in events:
        if event["ph"] == "C":
            times[event["pid"], event["name"]].append(event["ts"])
            if event["args"].keys() != {"values"} or event["args"]["values"] < 0:
                return False
    return all(before < later for several in times.values() for before, later in zip(several, several[1:]))


def ends_rise(events):
    """Whether slices are told in the order in which they end, and marks with them."""
    ends = [event["ts"] + event.get("dur", 1) for event in events if event["ph"] in ("X", "i")]
    return ends == sorted(ends)


def is_trace(text):
    """Whether it is JSON of the form that the format asks for, whose events keep its rules."""
    whole = json.loads(text)
    events = whole["traceEvents"]
    slices = collections.defaultdict(list)
    for event in events:
        if event["ph"] == "X":
            slices[event["tid"]].append(event)
    return (
        whole.keys() == {"traceEvents"}
        and all(event["ph"] in "MXisfC" and isinstance(event["pid"], int) and isinstance(event["name"], str) for event in events)
        and all(event["ph"] == "M" or event["ts"] >= 1 for event in events)
        and all(event["dur"] >= 1 for several in slices.values() for event in several)
        and all(map(nests, slices.values()))
        and flows_join(events, slices)
        and counters_rise(events)
        and ends_rise(events)
        and text.count(b"\n") == len(events) + 2
    )


def worked(program, _):
    """The texts that were written by hand: by the program, and by this second reading."""
    for row in table("viewers")["row"]:
        journal = row["journal"].encode()
        if "mermaid" in row:
            wanted = row["mermaid"].encode()
            steps = row.get("steps", (1, row["journal"].count("\n") - 2))
            yield f"{row['name']}: diagram", program.run(["mermaid", *map(str, row.get("steps", ()))], journal) == (0, wanted, b"")
            yield f"{row['name']}: diagram by the second reading", diagram(Journal(row["journal"]), *steps) == wanted
            yield f"{row['name']}: diagram by the grammar", is_diagram(wanted)
        if "trace" in row:
            wanted = row["trace"].encode()
            yield f"{row['name']}: trace", program.run(["trace"], journal) == (0, wanted, b"")
            yield f"{row['name']}: trace by the second reading", in_any_order(events_of(Journal(row["journal"]))) == in_any_order(json.loads(wanted)["traceEvents"])
            yield f"{row['name']}: trace by the rules", is_trace(wanted)
        if "page" in row:
            yield f"{row['name']}: page", page_of(row["page"], row["journal"]).encode() == program.run(["page", *map(str, row.get("shown", ()))], journal)[1]


def page_of(data, journal):
    """The page with these data, which were written by hand."""
    end = story_model.Story(journal).text(1, 0).decode()
    return page.joined(page.BEFORE) + data + page.joined(page.BETWEEN) + end + page.joined(page.AFTER)


def diagrams(program, work):
    for name, text, by_windows in journals():
        journal = Journal(text)
        steps = len(journal.entries)
        status, written, errors = program.run(["mermaid"], text.encode())
        if steps > MOST_STEPS:
            yield f"{name}: too long", (status, written, errors) == TOO_LONG
        else:
            yield name, (status, written, errors) == (0, diagram(journal, 1, steps), b"") and is_diagram(written)
        for first, last in ((1, min(steps, MOST_STEPS)), (max(1, steps - 9), steps), ((steps + 1) // 2,) * 2) if by_windows else ():
            status, written, errors = program.run(["mermaid", str(first), str(last)], text.encode())
            yield f"{name}: steps {first} to {last}", (status, written, errors) == (0, diagram(journal, first, last), b"") and is_diagram(written)


def traces(program, work):
    for name, text, _ in journals():
        status, written, errors = program.run(["trace"], text.encode())
        yield name, (status, errors) == (0, b"") and is_trace(written)
        yield f"{name}: its events", in_any_order(json.loads(written)["traceEvents"]) == in_any_order(events_of(Journal(text)))


def limits(program, _):
    """A diagram has 200 steps at most, wherever they stand; the steps that a journal does not have are looked at first."""
    head = "chanhub journal 1\nprocs 1\n"
    most = head + "0 make 0\n" * MOST_STEPS
    more = (most + "0 exit\n").encode()
    yield "200 steps", program.run(["mermaid"], most.encode()) == (0, diagram(Journal(most), 1, MOST_STEPS), b"")
    yield "201 steps", program.run(["mermaid"], more) == TOO_LONG
    yield "steps 1 to 201", program.run(["mermaid", "1", "201"], more) == TOO_LONG
    yield "steps 2 to 201", program.run(["mermaid", "2", "201"], more) == (0, diagram(Journal(more.decode()), 2, 201), b"")
    yield "steps 1 to 202", program.run(["mermaid", "1", "202"], more) == refused("no such steps")
    yield "steps 202 to 1", program.run(["mermaid", "202", "1"], more) == refused("FROM is above TO")
    yield "a diagram of no steps", program.run(["mermaid"], head.encode()) == (0, b"sequenceDiagram\n    participant P0\n", b"")
    yield "a trace of no steps", is_trace(program.run(["trace"], head.encode())[1])


def long_traces(program, _):
    """A journal of the most entries that are no exits is written within a minute."""
    values = (1000000 - 64) // 2
    done = program.run(["trace"], passing(values))
    yield "the longest trace", done is not None and done[0] == 0 and done[2] == b"" and done[1].count(b"\n") == 3 + 1 + 1 + 1000000 + 4 * values
    events = json.loads(done[1])["traceEvents"]
    yield "its events", collections.Counter(event["ph"] for event in events) == {"M": 3, "X": 1000000, "s": values, "f": values, "C": 2 * values}


def passing(values):
    """A journal in which so many values pass through 64 ports, one by one."""
    moves = (f"0 send {value % 64 + 1} {value}\n0 recv {value % 64 + 1}\n" for value in range(values))
    return ("chanhub journal 1\nprocs 1\n" + "0 make 1\n" * 64 + "".join(moves)).encode()


def pages_as_they_go(program, _):
    """A page is written block after block: a write may fail in any of them, and the memory for the page's text is that for a
    block's."""
    journal = passing(500)
    whole = program.run(["page"], journal)[1]
    data = whole.index(b"chanhub journal 1")
    for most in (0, data // 2, data + 1, data + 5000, len(whole) - 1):
        wanted = 1, b"chanhub: write failed\n", whole[:most]
        yield f"room for {most} of {len(whole)} bytes", program.run_to_short(["page"], journal, most) == wanted
    yield "room for all", program.run_to_short(["page"], journal, len(whole)) == (0, b"", whole)
    longest = passing((1000000 - 64) // 2)
    (status, written, memory), (_, _, least) = program.memory(["page"], longest), program.memory(["picture", "1"], longest)
    yield f"a page of {written} bytes within {memory} bytes of memory, and a picture within {least}", status == 0 and memory <= least + MOST_OF_PAGE


def faults(program, _):
    journal = b"chanhub journal 1\nprocs 0\n"
    for command in ("mermaid", "trace", "page"):
        yield f"{command}: a faulty journal", program.run([command], journal) == refused("line 2: bad procs")
        yield f"{command}: a full device", program.run_to_full([command], b"chanhub journal 1\nprocs 1\n0 exit\n") == (1, b"chanhub: write failed\n")


def refused_allocations(program, work):
    refuser = Refuser(work)
    for row in table("viewers")["row"]:
        for command in ("mermaid", "trace"):
            yield f"{row['name']}: {command}", survives_refusals(program, [command], row["journal"].encode(), refuser)
        yield f"{row['name']}: page", begins_under_refusals(program, ["page"], row["journal"].encode(), refuser)


def main():
    parts = worked, diagrams, traces, limits, long_traces, pages_as_they_go, faults, refused_allocations
    return count(Program(sys.argv[1]), *parts)


if __name__ == "__main__":
    sys.exit(main())
