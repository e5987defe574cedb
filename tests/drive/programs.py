"""What the drivers share: where modules and examples stand, tables of rows, what programs say, and how checks are counted."""
import contextlib
import os
import pathlib
import resource
import subprocess
import sys
import tempfile
import tomllib

ROOT = pathlib.Path(__file__).resolve().parents[2]
sys.path[:0] = [str(ROOT / it) for it in ("tools", "tools/build", "tools/gate", "tests/oracle")]
from counting import Count

MINUTE = 60
JOURNALS, SCENARIOS = ROOT / "examples" / "journals", ROOT / "examples" / "scenarios"


def table(name):
    return tomllib.loads((ROOT / "tests" / f"{name}.toml").read_text())


def examples(folder):
    """The paths of the examples there."""
    return [path for path in sorted(folder.iterdir()) if not path.suffix]


def faulty_journals():
    """The journals of tests/faulty_journals.toml, each with its name and its fault."""
    rows = table("faulty_journals")
    for group in rows["group"]:
        for name, line in group["lines"].items():
            yield name, f"{group['before']}{line}\n{group['after']}", group["fault"]
    for fault, texts in rows["texts"].items():
        yield from ((repr(text), text, fault) for text in texts)


def said(words, given=b"", timeout=MINUTE, **how):
    """The status, and what was written to standard output and to standard error."""
    how = how if "stdin" in how else {**how, "input": given}
    done = subprocess.run(words, capture_output=True, timeout=timeout, **how)
    return done.returncode, done.stdout, done.stderr


def said_into(stream, file, words, given=b"", **how):
    """The status, and what was written to the other one of standard output and standard error, where this one is a file."""
    streams = {"stdout": subprocess.PIPE, "stderr": subprocess.PIPE, stream: file}
    done = subprocess.run(words, input=given, timeout=MINUTE, **streams, **how)
    return done.returncode, done.stderr if stream == "stdout" else done.stdout


def said_limited(stream, room, words, given=b"", **how):
    """The same where the file takes so many bytes and no more; and what it took."""
    # The signal that comes with the first byte too many is ignored here, and so it is in the program.
    limits = {"restore_signals": False, "preexec_fn": lambda: resource.setrlimit(resource.RLIMIT_FSIZE, (room, room))}
    with tempfile.TemporaryFile() as file:
        status, other = said_into(stream, file, words, given, **limits, **how)
        file.seek(0)
        return status, other, file.read()


def build_library(folder, name, *flags):
    """The library of this source in C, to stand before a program's own."""
    library, source = pathlib.Path(folder) / f"{name}.so", ROOT / "tests" / "drive" / f"{name}.c"
    subprocess.run([os.environ.get("CC", "cc"), "-O1", "-shared", "-fPIC", *flags, "-o", library, source], check=True)
    return str(library)


def busy_time():
    """How long the processor took for all that was started and has ended."""
    used = resource.getrusage(resource.RUSAGE_CHILDREN)
    return used.ru_utime + used.ru_stime


def all_of(terminal):
    """What was written to a terminal, until nobody has it open any longer."""
    pieces = []
    with contextlib.suppress(OSError):
        while piece := os.read(terminal, 4096):
            pieces.append(piece)
    os.close(terminal)
    return b"".join(pieces)


def refused(fault):
    """What is said of a fault of what is given."""
    return 2, b"", f"chanhub: {fault}\n".encode()


def count_checks(parts, *words):
    """Makes the checks of each part, which is given these words and a folder, prints those that fail and how many there were, and
    answers the status."""
    count = Count()
    with tempfile.TemporaryDirectory() as work:
        for part in parts:
            for name, good in part(*words, work):
                count.test(f"{part.__name__}: {name}", good)
    return count.end()
