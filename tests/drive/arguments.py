#!/usr/bin/env python3
"""arguments.py PROGRAM TOOL: tries words that are no UTF-8 on the built chanhub (PROGRAM) and chanhub_tool (TOOL), beside the
words that each knows: they are bad arguments, and nothing is read or written for them; chanhub_tool says what is wrong. The bytes
of a program's own name are no argument: under a name that is no UTF-8 it does the same. The last line counts: 'N passed, M
failed'."""
import os
import sys
import tempfile

sys.dont_write_bytecode = True
from programs import JOURNALS, Count, said

JOURNAL = (JOURNALS / "hand_over").read_bytes()
# no text has such a byte
BYTE = b"\xff"
BAD = 2, b"", b"chanhub: bad arguments\n"

# what each program is asked for, with what stands behind
ASKED = {
    "chanhub": [[b"replay"], [b"run"], [b"run", b"--journal"], [b"verify"], [b"verify", b"journal"]],
    "chanhub_tool": [[b"story"], [b"picture"], [b"serve"], [b"story", b"1"], [b"story", b"-o"], [b"picture", b"1", b"2", b"-"], [b"--help"], [b"--version"]],
}
# what does something
SERVED = {
    "chanhub": [[b"replay"]],
    "chanhub_tool": [[b"story"], [b"picture", b"1", b"2"], [b"story", b"2", b"-"], [b"serve"], [b"--help"], [b"story", b"--help"], [b"--version"]],
}
# what does not
REFUSED = {
    "chanhub": [[], [b"--help"], [b"x"]],
    "chanhub_tool": [[], [b"x"], [b""], [b"serve", b"x"]],
}


def is_refused(name, answer, more=b""):
    """Whether bad arguments are told, and behind that by chanhub_tool what is wrong."""
    said = BAD[2] + (b"chanhub_tool: " + more if name == "chanhub_tool" else b"")
    return answer[:2] == BAD[:2] and answer[2].startswith(said) and (name == "chanhub_tool" or answer == BAD)


def told(program, words):
    return said([program, *words], JOURNAL)


def behind(words):
    """These words with one that is no text behind them, in their midst, or as a part of the last."""
    yield [*words, BYTE]
    yield [BYTE, *words]
    if words:
        yield [*words[:-1], words[-1] + BYTE]


def checks(name, program, work):
    for words in ASKED[name]:
        for given in behind(words):
            yield f"{name} {b' '.join(given)}", is_refused(name, told(program, given), b"an argument is not UTF-8\n")
    for words in REFUSED[name]:
        yield f"{name} {b' '.join(words)}", is_refused(name, told(program, words))
    named = os.path.join(os.fsencode(work), os.fsencode(name) + BYTE)
    os.symlink(program, named)
    for words in SERVED[name]:
        served = told(program, words)
        yield f"{name} {b' '.join(words)}", served[0] == 0 and served[1] != b"" and served[2] == b""
        yield f"{name} {b' '.join(words)} under a name that is no text", told(named, words) == served
    yield f"{name}, a bad argument under such a name", is_refused(name, told(named, [b"x"]))


def main():
    count = Count()
    with tempfile.TemporaryDirectory() as work:
        for name, program in zip(ASKED, sys.argv[1:3]):
            for check, good in checks(name, os.path.realpath(program), work):
                count.test(check, good)
    return count.end()


if __name__ == "__main__":
    sys.exit(main())
