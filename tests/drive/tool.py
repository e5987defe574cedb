#!/usr/bin/env python3
"""tool.py TOOL: tries the words of the built chanhub_tool (TOOL) by the rows of tests/tool.toml: steps, files that take the place
of standard input and output, those that are refused, chains of chapters, runs of scenarios, and help; with each allocation
refused too, which needs a C compiler. The last line counts: 'N passed, M failed'."""
import pathlib
import re
import subprocess
import sys

sys.dont_write_bytecode = True
from programs import ROOT, refused, table
from refusals import Refuser
from story import LONGER, Program, begins_under_refusals, count, survives_refusals
from story_model import Story

ROWS = table("tool")
JOURNAL = ROWS["journal"].encode()


def failed(fault):
    return 1, b"", f"chanhub: {fault}\n".encode()


def saying(answer, more):
    """The answer with a line more, which says which word or which file is wrong."""
    return *answer[:2], answer[2] + f"chanhub_tool: {more}\n".encode()


class Folder:
    """A new folder with the files of the rows, in which the program runs."""

    def __init__(self, program, work, out=None):
        self.program = program
        self.path = pathlib.Path(work) / "folder"
        self.path.mkdir(exist_ok=True)
        for name in ROWS["files"]:
            (self.path / name).write_bytes(JOURNAL)
        self.out.unlink(missing_ok=True)
        if out is not None:
            self.out.write_bytes(out)

    @property
    def out(self):
        return self.path / "out"

    def run(self, words, given=JOURNAL):
        return self.program.run(words, given, self.path)

    def left(self):
        """What the file `out` holds, where it is there."""
        return self.out.read_bytes() if self.out.exists() else None


def told(program, work):
    for row in ROWS["told"]:
        wanted = 0, Story(ROWS["journal"]).text(*row["steps"]), b""
        for words in row["input"]:
            yield " ".join(words), Folder(program, work).run(words) == wanted
        for words in row["files"]:
            yield " ".join(words), Folder(program, work).run(words, b"") == wanted


def written(program, work):
    wanted = Story(ROWS["journal"]).text(1, 2)
    for words in ROWS["written"]["words"]:
        for before in (None, b"", wanted + b"and more"):
            folder = Folder(program, work, before)
            yield f"{' '.join(words)} over {before}", folder.run(words, b"") == (0, b"", b"") and folder.left() == wanted
    folder = Folder(program, work)
    done = folder.run(["story", "journal", "-o", "journal"], b"")
    yield "a story over its journal", done == (0, b"", b"") and (folder.path / "journal").read_bytes() == wanted


def pictures(program, work):
    """A picture of one step, and of a file to a file, are those of standard input to standard output."""
    folder = Folder(program, work)
    for words in (["1"], ["1", "journal"]):
        given = b"" if "journal" in words else JOURNAL
        yield f"picture {words}", folder.run(["picture", *words], given) == folder.run(["picture", "1", "1"])
    status, picture, errors = folder.run(["picture"])
    done = folder.run(["picture", "journal", "-o", "out"], b"")
    yield "a picture to a file", (status, errors) == (0, b"") and done == (0, b"", b"") and folder.left() == picture


def viewers(program, work):
    """A diagram and a trace of a file, and to a file, are those of standard input to standard output; to a trace a word of digits
    is a file as well."""
    for command, files in (("mermaid", ["journal", "-", "./7"]), ("trace", ["journal", "-", "7"])):
        folder = Folder(program, work)
        status, text, errors = folder.run([command])
        for name in files:
            yield f"{command} {name}", (status, errors) == (0, b"") and folder.run([command, name]) == (0, text, b"")
        done = folder.run([command, "journal", "-o", "out"], b"")
        yield f"{command} to a file", done == (0, b"", b"") and folder.left() == text


def not_written(program, work):
    """Where it fails, nothing is printed, and a file `out` stays as it was."""
    wants = [(refused(fault), words) for fault, several in ROWS["refused"].items() for words in several]
    wants += [(saying(refused("bad arguments"), wrong), words) for wrong, several in ROWS["wrong"].items() for words in several]
    wants += [(failed("read failed"), words) for words in ROWS["unread"]["words"]]
    wants += [(saying(failed("read failed"), f"'{name}' cannot be opened"), words) for name, several in ROWS["unopened"].items() for words in several]
    wants += [(failed("write failed"), words) for words in ROWS["unwritten"]["words"]]
    for wanted, words in wants:
        for before in (None, b"kept"):
            folder = Folder(program, work, before)
            yield f"{wanted[2].decode().strip()}: {' '.join(words)}", is_told(folder.run(words), wanted) and folder.left() == before


def is_told(answer, wanted):
    """Whether this is the answer, or its beginning where it says in a last line which word is wrong."""
    return answer == wanted or wanted == refused("bad arguments") and answer[:2] == wanted[:2] and answer[2].startswith(wanted[2] + b"chanhub_tool: ")


def faulty_journals(program, work):
    folder = Folder(program, work, b"kept")
    (folder.path / "journal").write_bytes(b"chanhub journal 1\nprocs 0\n")
    for words in (["story", "journal"], ["picture", "journal"], ["mermaid", "1", "journal"], ["trace", "journal"], ["story", "journal", "-o", "out"], ["picture", "3", "journal", "-o", "out"]):
        yield " ".join(words), folder.run(words) == refused("line 2: bad procs") and folder.left() == b"kept"


def chains(program, work):
    """A chain that is whole, and chains that break; standard input holds the second chapter."""
    path = pathlib.Path(work) / "chapters"
    path.mkdir(exist_ok=True)
    for name, text in ROWS["chapters"].items():
        (path / name).write_text(text)
    given = ROWS["chapters"]["second"].encode()
    wants = [((0, b"whole\n", b""), ROWS["chain"]["whole"])]
    wants += [((3, f"{line}\n".encode(), b""), several) for line, several in ROWS["chain"]["broken"].items()]
    wants += [(refused(line), several) for line, several in ROWS["chain"]["malformed"].items()]
    for wanted, several in wants:
        for files in several:
            yield " ".join(files), program.run(["chain", *files], given, path) == wanted
    full = [str(path / name) for name in ("first", "second")]
    yield "a full device", program.run_to_full(["chain", *full]) == (1, b"chanhub: write failed\n")
    yield "refused allocations", survives_refusals(program, ["chain", *full, "-"], ROWS["chapters"]["third"].encode(), Refuser(work))


def tells(program, path, entries, wanted):
    """Whether this file is a journal of so many entries, whose story has this text."""
    text = path.read_text()
    status, story, errors = program.run(["story", path.name], b"", path.parent)
    told = Story(text)
    return len(told.entries) == entries and (status, story, errors) == (0, told.text(1, entries), b"") and wanted.encode() in story


def explorations(program, work):
    """What is said of all runs of scenarios, and the journals that are found."""
    path = pathlib.Path(work) / "scenarios"
    path.mkdir(exist_ok=True)
    for name, text in ROWS["scenarios"].items():
        (path / name).write_text(text)
    given = ROWS["scenarios"]["idle"].encode()
    for status, rows in ROWS["explore"].items():
        for line, several in rows.items():
            wanted = refused(line) if status == "2" else (int(status), f"{line}\n".encode(), b"")
            for words in several:
                yield " ".join(words), program.run(["explore", *words], given, path) == wanted
    too_long = b"#" * 1048575 + b"\n" + given
    yield "a scenario that is too long", program.run(["explore"], too_long, path) == refused("scenario: too long")
    found = path / "found"
    for row in ROWS["found"]:
        line = f"{row.get('line', 'stall')} after {row['steps']} steps\n".encode()
        asked = ["explore", row["scenario"], *(["--ask", row["ask"]] if "ask" in row else []), "--journal"]
        done = program.run([*asked, "found"], b"", path)
        wanted = row.get("story", "stall: everyone who is left waits")
        yield f"{row['scenario']}: its journal", done == (4, line, b"") and tells(program, found, row["ports"] + row["steps"], wanted)
        yield f"{row['scenario']}: its journal behind the line", program.run([*asked, "-"], b"", path) == (4, line + found.read_bytes(), b"")
        for out in ("missing/out", "/dev/full", "."):
            yield f"{row['scenario']}: no journal to {out}", program.run([*asked, out], b"", path) == (1, line, b"chanhub: write failed\n")
        found.unlink()
    for name in ("idle", "alone"):
        yield f"{name} for a full device", program.run_to_full(["explore", str(path / name)]) == (1, b"chanhub: write failed\n")
    refuser = Refuser(work)
    for name, *asked in (["polls"], ["alone"], ["bad_script"], ["polls", "--ask", "left"], ["stalls_and_leaves", "--ask", "left"]):
        yield f"{name} {asked}: refused allocations", survives_refusals(program, ["explore", str(path / name), *asked, "--journal", "-"], b"", refuser)


def help_texts(program, work):
    folder = Folder(program, work)
    for beginning, several in ROWS["help"].items():
        for words in several:
            status, text, errors = folder.run(words, b"")
            yield " ".join(words), (status, errors) == (0, b"") and text.startswith(beginning.encode()) and b"\nUsage: chanhub_tool" in text
    yield "help for a full device", program.run_to_full(["--help"]) == (1, b"")


def versions(program, work):
    """The version is that of the Rust crate over the library for C."""
    version = re.search(r'^version = "(.*)"$', (ROOT / "capi" / "rust" / "Cargo.toml").read_text(), re.M)[1]
    for words in ROWS["version"]["words"]:
        yield " ".join(words), Folder(program, work).run(words, b"") == (0, f"chanhub_tool {version}\n".encode(), b"")


def little_stack(program, work):
    """The stack that its help speaks of is enough."""
    said = program.run(["--help"])[1]
    found = re.search(rb"needs (\d+) KB of stack", said)
    scenario = str(ROOT / "examples" / "philosophers")
    for words in (["story"], ["picture"], ["mermaid"], ["trace"], ["page"], ["serve"], ["chain", "-"], ["explore", scenario], ["explore", scenario, "--ask", "left"], ["story", "-x"]):
        limited = ["sh", "-c", 'ulimit -s "$0" && exec "$@"', found[1] if found else "0", program.path, *words]
        done = subprocess.run(limited, input=JOURNAL, capture_output=True)
        yield " ".join(words), (done.returncode, done.stdout, done.stderr) == program.run(words, JOURNAL)


def refused_allocations(program, work):
    refuser = Refuser(work)
    for words in (["story", "1", "-"], ["picture", "1"], ["mermaid", "1"], ["trace"], ["serve"], ["--help"], ["story", "--help"], ["--version"]):
        yield " ".join(words), survives_refusals(program, words, JOURNAL, refuser)
    yield "a picture of some pieces", begins_under_refusals(program, ["picture"], LONGER, refuser)
    yield "bad arguments", survives_refusals(program, ["story", "--bad"], JOURNAL, refuser)


def main():
    parts = told, written, pictures, viewers, not_written, faulty_journals, chains, explorations, help_texts, versions, little_stack, refused_allocations
    return count(Program(sys.argv[1]), *parts)


if __name__ == "__main__":
    sys.exit(main())
