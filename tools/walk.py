"""A walk over a journal by model.py: what becomes of each entry, which value it moved and to whom, and what ports carried by
then."""
import collections

import model

NOBODY = -1  # the clock of a journal that has none

Move = collections.namedtuple("Move", "side port value")
# A case of a call that waits: who sent and who received there last, if anybody did; whether all have exited who received there
# since it was opened last, if the case is a send; and the process for which it perhaps waits, as docs/EXPLAIN.md says it, or
# None.
Wait = collections.namedtuple("Wait", "entry side port sender receiver is_left whom")


class Entry:
    """A line of a journal, and what becomes of it."""

    __slots__ = ("place", "line", "pid", "word", "asked", "cases", "end", "by", "move", "partner", "ender")

    def __init__(self, place, line):
        fields = line.split(" ")
        self.place, self.line, self.pid = place, line, int(fields[0])
        self.word, self.asked = model.step(fields[1:])
        self.cases = self.asked[0] if self.word == "call" else ()
        # the words of the event that ended it, and the place of the entry by which it ended and that one's process
        self.end = self.by = self.ender = None
        self.move = self.partner = None  # the value that it put into a port or took from one, and the entry at its other end

    @property
    def fired(self):
        """The case that fired, if one did."""
        return self.cases[int(self.end.split(" ")[1])] if self.end and self.end.startswith("case") else None

    @property
    def outcome(self):
        """What it was told of its case: `sent` or `got 5`."""
        return self.end.split(" ", 2)[2]

    @property
    def is_parked(self):
        """Whether it was told that it waits."""
        return self.by != self.place or self.end == "stalled"

    @property
    def is_trouble(self):
        return self.end is not None and (self.end == "stalled" or self.end.startswith("fault") or self.end.endswith(" closed"))

    def waited(self, count):
        """How many steps it waited, of a journal of so many."""
        return (count - 1 if self.end is None else self.by) - self.place


class Port:
    """What a port carried so far."""

    def __init__(self, maker):
        self.maker = self.opener = maker  # the opener made it, or opened it again last
        self.room = maker.asked if maker else 0  # the most that it was made or opened again with
        self.closer = self.sender = self.receiver = None
        self.receivers = set()  # since it was opened last
        self.sent = self.received = 0
        self.most, self.fullest = 0, None  # how many values were in it at most after a step, and the place of the first such step
        self.lone = collections.deque()  # what moved values of which only one end is told yet; a receiver may be told first

    @property
    def count(self):
        return self.sent - self.received

    def take(self, entry):
        """A value was put into it, or taken from it: the first that was put is the first that is taken."""
        if entry.move.side == "s":
            self.sent, self.sender = self.sent + 1, entry
        else:
            self.received, self.receiver = self.received + 1, entry
            self.receivers.add(entry.pid)
        if self.lone and self.lone[0].move.side != entry.move.side:
            entry.partner = self.lone.popleft()
            entry.partner.partner = entry
        else:
            self.lone.append(entry)


def ports_of(entries):
    """The ports on which these moved values, by number."""
    return {entry.move.port for entry in entries if entry.move}


class Walk:
    """A journal, whose lines are gone through once: who waits, who has exited, and its ports, by the step that it has come to."""

    def __init__(self, lines):
        self.clock, self.lines = clock_of(lines), iter(lines)
        head, procs = next(self.lines), next(self.lines)
        self.procs = int(procs.split()[1])
        self.hub = model.Hub(int(head.split()[2]), self.procs)
        self.ports = [Port(None)]  # by number, the nil port first
        self.waiting, self.exits = {}, {}  # by process, its call that waits, and its exit; both in the order in which they came

    def __iter__(self):
        """Each entry, and those that ended by it, in the order in which they are told so: it is the first, unless it waits."""
        for place, line in enumerate(self.lines):
            entry = Entry(place, line)
            self.hub.step(entry.pid, entry.word, entry.asked)
            events, self.hub.events = self.hub.events, []
            ended = []
            for number, event in enumerate(events):
                pid, words = event.split(" ", 1)
                told = self.waiting.pop(int(pid)) if number else entry
                if words == "parked":
                    self.waiting[entry.pid] = entry
                else:
                    told.end, told.by, told.ender = words, place, entry.pid
                    self.finish(told)
                    ended.append(told)
            for port in map(self.ports.__getitem__, ports_of(ended)):
                if port.count > port.most:
                    port.most, port.fullest = port.count, place
            yield entry, ended

    def words(self, entry):
        """What an entry was told in the end. The clock is woken, and what it cancels has timed out."""
        if entry.end in ("cancelled", "stalled") and entry.pid == self.clock:
            return "woken"
        return "timed out" if entry.end == "cancelled" and entry.ender == self.clock else entry.end

    def name(self, pid):
        """A process by its name."""
        return f"P{pid}, the clock" if pid == self.clock else f"P{pid}"

    def finish(self, entry):
        words = entry.end.split(" ")
        if words[0] == "made":
            self.ports.append(Port(entry))
        elif words[0] == "done":
            self.turn(entry)
        elif words[0] == "case" and words[2] in ("sent", "got"):
            side, number, *sent = entry.cases[int(words[1])]
            entry.move = Move(side, number, str(*sent) if sent else words[3])
            self.ports[number].take(entry)

    def turn(self, entry):
        """A process has left, or is there again; a port is closed, or open again."""
        if entry.word == "exit":
            self.exits[entry.pid] = entry
        elif entry.word == "start":
            del self.exits[entry.asked]
        elif entry.word == "close":
            self.ports[entry.asked].closer = entry
        elif entry.word == "reopen":
            number, room = entry.asked
            port = self.ports[number]
            port.opener, port.closer, port.receivers, port.room = entry, None, set(), max(port.room, room)

    def waits(self, entries):
        """Each case of these calls, which wait at once. One that receives perhaps waits for who sent there last, or else for who
        received there last, and one that sends the other way round: for the first of both who waits too, and not on the same side
        of the port."""
        offers = {entry.pid: {case[:2] for case in entry.cases} for entry in entries}
        for entry in entries:
            for side, number in (case[:2] for case in entry.cases):
                port = self.ports[number]
                movers = port.sender, port.receiver
                others = (mover.pid for mover in (movers if side == "r" else reversed(movers)) if mover)
                others = (pid for pid in others if pid != entry.pid and pid in offers and (side, number) not in offers[pid])
                is_left = side == "s" and set() < port.receivers <= self.exits.keys()
                yield Wait(entry, side, number, *movers, is_left, next(others, None))


class Journal(Walk):
    """A journal that was gone through to its end."""

    def __init__(self, text):
        super().__init__(text.splitlines())
        self.entries = []
        self.levels = collections.defaultdict(dict)  # by port, how many values it holds after each step by which one moved
        for entry, ended in self:
            self.entries.append(entry)
            for number in ports_of(ended):
                self.levels[number][entry.place] = self.ports[number].count
            self.take(entry, ended)

    def take(self, entry, ended):
        """What a reading asks of each step besides."""


def clock_of(lines):
    """The clock, which from edition 2 on may be the last of several processes. It receives on port 0, and else only cancels and
    exits. It makes the first step, or more than one besides its exit."""
    head, procs, *lines = lines
    clock = int(procs.split()[1]) - 1
    own = [line.split()[1:] for line in lines if line.startswith(f"{clock} ")]
    waits = [words for words in own if words == ["recv", "0"] or words[0] == "select" and words[2:] == ["r0"]]
    cancels, exits = ([words for words in own if words[0] == word] for word in ("cancel", "exit"))
    if head.split()[2] == "1" or clock == 0 or not waits or len(waits) + len(cancels) + len(exits) < len(own):
        return NOBODY
    return clock if len(waits) + len(cancels) > 1 or lines[0].startswith(f"{clock} ") else NOBODY
